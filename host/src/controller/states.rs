//! Request Q-1 of document 02: the states of many blocks in one go, written from the papers alone.
//! The numbers are parted by groups first, so that each named group's current page is fetched once,
//! into the one buffer that there is for a page.
use super::entry::Entry;
use super::memory::{Memory, Page, PAGE_SIZE};
use super::{ask, ask_box, ask_time, current_page, GROUP_DATA};
use std::mem;

const MOST_NUMBERS: usize = 64;
const NUMBER_SIZE: usize = 4;
/// A state byte and a time left.
const SHOWN_SIZE: usize = 9;

/// No list has this place.
const END: u8 = 255;

type Numbers = [[u8; NUMBER_SIZE]];

/// State and time left of each block of the list: the number of pages read, or that of the first
/// question that said no.
pub fn states<const COUNTS: usize>(
    memory: &mut [u8],
    disk: &[u8],
    blocks: &[u8],
    now: u32,
    answer: &mut [u8],
) -> Result<u32, u32> {
    let numbers = questions::<COUNTS>(memory, disk, blocks, now, answer.len())?;
    let memory = Memory::<COUNTS>::of_mut(memory).unwrap();
    memory.set_last_time(now);
    Ok(show(memory, disk, numbers, now, answer.as_chunks_mut().0))
}

/// The questions in order; where all have yes, the list's numbers.
fn questions<'a, const COUNTS: usize>(
    memory: &[u8],
    disk: &[u8],
    blocks: &'a [u8],
    now: u32,
    answer_len: usize,
) -> Result<&'a Numbers, u32> {
    let memory = ask_box::<COUNTS>(memory, disk)?;
    ask_time(memory, now)?;
    let (numbers, rest) = blocks.as_chunks();
    ask(rest.is_empty() && (1..=MOST_NUMBERS).contains(&numbers.len()), 12)?;
    let end = GROUP_DATA * memory.groups() as u32;
    // The highest of them tells, and is found without a branch for each.
    let highest = numbers.iter().map(|number| u32::from_le_bytes(*number)).max();
    ask(highest < Some(end), 5)?;
    ask(answer_len == SHOWN_SIZE * numbers.len(), 6)?;
    Ok(numbers)
}

/// Fills the answer group by group, and says how many pages that took.
fn show<const COUNTS: usize>(
    memory: &Memory<COUNTS>,
    disk: &[u8],
    numbers: &Numbers,
    now: u32,
    answer: &mut [[u8; SHOWN_SIZE]],
) -> u32 {
    let mut first = [END; COUNTS];
    let mut next = [END; MOST_NUMBERS];
    let mut named = part(numbers, &mut first, &mut next);
    let mut page = [0; PAGE_SIZE];
    let mut pages = 0;
    while named != 0 {
        let group = named.trailing_zeros() as usize;
        named &= named - 1;
        pages += fetch(memory, disk, group, &mut page);
        let mut place = first[group % COUNTS];
        while place != END {
            let number = u32::from_le_bytes(numbers[place as usize]);
            answer[place as usize] = shown(Entry::read(&page, (number % GROUP_DATA) as usize), now);
            place = next[place as usize];
        }
    }
    pages
}

/// Parts the list's places by groups: from a group's first one leads on to the next, until END. Says
/// which groups are named, a bit for each.
fn part<const COUNTS: usize>(numbers: &Numbers, first: &mut [u8; COUNTS], next: &mut [u8; MOST_NUMBERS]) -> u64 {
    let mut named = 0;
    for (place, (number, next)) in numbers.iter().zip(next).enumerate() {
        let group = (u32::from_le_bytes(*number) / GROUP_DATA) as usize % COUNTS;
        *next = mem::replace(&mut first[group], place as u8);
        named |= 1u64 << group;
    }
    named
}

/// Copies the group's current page: one page read.
fn fetch<const COUNTS: usize>(memory: &Memory<COUNTS>, disk: &[u8], group: usize, page: &mut Page) -> u32 {
    page.copy_from_slice(current_page(memory, disk, group));
    1
}

#[inline]
fn shown(entry: Entry, now: u32) -> [u8; SHOWN_SIZE] {
    let mut bytes = [entry.state(now) as u8; SHOWN_SIZE];
    bytes[1..].copy_from_slice(&entry.time_left(now).to_le_bytes());
    bytes
}

#[cfg(test)]
mod tests {
    use super::super::tests::Formatted;
    use super::super::{PRESENT, SYNC, UNFREEZE, WRITE};
    use super::states;

    /// What formatting leaves of an entry, at 1000: free, and 1000 seconds past.
    const BLANK: [u8; 9] = [0, 0x18, 0xFC, 0xFF, 0xFF, 0xFF, 0xFF, 0xFF, 0xFF];
    const LOCK_500: [u8; 9] = [1, 0xF4, 0x01, 0, 0, 0, 0, 0, 0];

    impl Formatted {
        /// The list shows these bytes and reads so many pages.
        fn shows(&mut self, numbers: &[u32], now: u32, pages: u32, shown: &[[u8; 9]]) {
            let blocks: Vec<u8> = numbers.iter().flat_map(|number| number.to_le_bytes()).collect();
            let mut answer = vec![0xCC; 9 * numbers.len()];
            assert_eq!(states::<PRESENT>(&mut self.memory, &self.disk, &blocks, now, &mut answer), Ok(pages));
            assert_eq!(answer, shown.as_flattened());
            assert_eq!(self.memory[288..292], now.to_le_bytes());
        }

        /// The list gets this number, and nothing changes.
        fn refuses(&mut self, blocks: &[u8], now: u32, answer_len: usize, number: u32) {
            let (memory, mut answer) = (self.memory, vec![0xCC; answer_len]);
            assert_eq!(states::<PRESENT>(&mut self.memory, &self.disk, blocks, now, &mut answer), Err(number));
            assert_eq!(answer, vec![0xCC; answer_len]);
            assert_eq!(self.memory, memory);
        }
    }

    #[test]
    fn the_worked_entry_is_shown_from_its_lock_to_past_its_expiry() {
        let mut a = Formatted::new(1);
        a.sends(WRITE, 0, 1000, 500);
        a.shows(&[0, 1], 1000, 1, &[LOCK_500, BLANK]);
        a.sends(UNFREEZE, 0, 1200, 0);
        a.shows(&[0], 1650, 1, &[[2, 51, 0, 0, 0, 0, 0, 0, 0]]);
        a.shows(&[0], 1700, 1, &[[2, 1, 0, 0, 0, 0, 0, 0, 0]]);
        a.shows(&[0], 1701, 1, &[[0; 9]]);
        a.shows(&[0], 1751, 1, &[[0, 0xCE, 0xFF, 0xFF, 0xFF, 0xFF, 0xFF, 0xFF, 0xFF]]);
    }

    #[test]
    fn a_page_is_read_once_for_each_group_named_wherever_it_is() {
        let mut a = Formatted::new(64);
        a.sends(WRITE, 4095, 1000, 500);
        a.shows(&[4095, 0, 4095, 64, 1], 1000, 3, &[LOCK_500, BLANK, LOCK_500, BLANK, BLANK]);
        a.shows(&[63, 63], 1000, 1, &[BLANK, BLANK]);
        a.sends(SYNC, 0, 1000, 0);
        a.shows(&[64, 4095], 1000, 2, &[BLANK, LOCK_500]);
        let spread: Vec<u32> = (0..64).map(|i| i * 64).collect();
        a.shows(&spread, 1000, 64, &[BLANK; 64]);
    }

    #[test]
    fn a_list_is_refused_by_the_first_question_in_order() {
        let mut a = Formatted::new(1);
        a.shows(&[0], 1000, 1, &[BLANK]);
        for bytes in [0, 3, 5, 257, 260] {
            a.refuses(&vec![0xFF; bytes], 1000, 1, 12);
        }
        a.refuses(&[64, 0, 0, 0], 1000, 1, 5);
        a.refuses(&[0, 0, 0, 0, 0, 0, 0, 1], 1000, 18, 5);
        a.refuses(&[63, 0, 0, 0], 1000, 8, 6);
        a.refuses(&[63, 0, 0, 0], 1000, 10, 6);
        a.refuses(&[], 999, 0, 4);
        a.refuses(&[], 2_147_483_648, 0, 4);
        a.disk.pop();
        a.refuses(&[], 999, 0, 2);
        a.memory[294] = 1;
        a.refuses(&[], 999, 0, 1);
    }
}
