//! The comparison of lists, document 02's request Q-1: state and time left of many blocks in one go.
//! Its checks, which `bin/commands.rs` runs, use a box in which all entries differ.
pub mod hand;
pub mod lengths;
pub mod limits;
pub mod order;
pub mod states;

use super::call::{put_number, Call, GROUP, MEMORY};
use super::pair::Pair;
use super::places::{COUNTS, PRESENT};
use std::collections::BTreeSet;

const LAST_TIME: u32 = 1000;
pub const NOW: u32 = 20_000;
pub const NONE: u8 = 255;
/// The updates to a held page.
const UPDATES: u8 = 63;

/// A list to be sent.
pub struct List {
    pub blocks: Vec<u8>,
    pub now: u32,
    pub answer_len: usize,
    /// The lengths that are told to the controllers where they are not those of the box.
    pub memory_len: Option<usize>,
    pub disk_len: Option<usize>,
}

impl List {
    /// A list with an answer of its length.
    pub fn new(numbers: &[u32], now: u32) -> List {
        let blocks = numbers.iter().flat_map(|number| number.to_le_bytes()).collect();
        List { blocks, now, answer_len: 9 * numbers.len(), memory_len: None, disk_len: None }
    }

    pub fn numbers(&self) -> impl Iterator<Item = u32> + '_ {
        self.blocks.chunks_exact(4).map(|bytes| u32::from_le_bytes(bytes.try_into().unwrap()))
    }

    /// Names another block at a place, counted round the list, which is to have a number.
    pub fn put(&mut self, place: usize, number: u32) {
        if let Some(place) = place.checked_rem(self.blocks.len() / 4) {
            put_number(&mut self.blocks, 4 * place, number);
        }
    }
}

/// A box in which none or one page is held. All entries differ, those of the held page from the ones
/// below it on the disk too. From one block to the next they are frozen, counting and free at NOW, by
/// turns.
pub fn box_of(groups: usize, held: u8) -> (Vec<u8>, Vec<u8>) {
    let mut memory = vec![0; MEMORY];
    let mut disk: Vec<u8> = (0..groups * GROUP).map(|i| (i % 251) as u8).collect();
    (0..32).for_each(|i| memory[i] = i as u8 + 1);
    (0..groups).for_each(|group| put_number(&mut memory, COUNTS + 4 * group, group as u32 + 1));
    put_number(&mut memory, PRESENT.last_time, LAST_TIME);
    memory[PRESENT.groups] = groups as u8;
    memory[PRESENT.held] = held;
    for (group, stretch) in disk.chunks_exact_mut(GROUP).enumerate() {
        fill_page(&mut stretch[GROUP - 512..], group as u32, 0);
    }
    if held != NONE {
        memory[PRESENT.updates] = UPDATES;
        fill_page(&mut memory[PRESENT.page..], held as u32, 1);
    }
    (memory, disk)
}

fn fill_page(page: &mut [u8], group: u32, turn: u32) {
    for (index, entry) in page.chunks_exact_mut(8).enumerate() {
        let block = 64 * group + index as u32;
        let own = block + 5000 * turn;
        let (word, flag) = match (block + turn) % 3 {
            0 => (500 + own, 0),
            1 => (NOW + 1 + own, 1),
            _ => (NOW - own, 1),
        };
        put_number(entry, 0, word);
        put_number(entry, 4, 2 * block + flag);
    }
}

/// How many different groups are named.
fn groups_named(numbers: impl IntoIterator<Item = u32>) -> u32 {
    numbers.into_iter().map(|number| number / 64).collect::<BTreeSet<u32>>().len() as u32
}

/// A list that is accepted, with a page for each different group.
fn accepted(pair: &mut Pair, numbers: &[u32], now: u32) -> Result<(), String> {
    pair.expect_list(&List::new(numbers, now), Ok(groups_named(numbers.iter().copied())))
}

/// The same, and it answers what kind 2 answers for each of its numbers at that time.
fn as_entries(pair: &mut Pair, numbers: &[u32], now: u32) -> Result<(), String> {
    accepted(pair, numbers, now)?;
    let answer = pair.answer().to_vec();
    for (number, shown) in numbers.iter().zip(answer.chunks_exact(9)) {
        pair.expect(&Call::new(2, *number, now, 0), 0)?;
        let entry = pair.answer();
        if shown[0] != entry[16] || shown[1..] != entry[8..16] {
            return Err(format!("command {}: kind 2 and a list differ on block {number} at {now}", pair.index));
        }
    }
    Ok(())
}
