//! Each clause of a memory's validity, broken on its own, and met at its limits.
use super::call::{put_number, Call, LATEST, UNKNOWN};
use super::lists::List;
use super::pair::Pair;
use super::places::{COUNTS, PRESENT};
use super::situation::{situation, Questions, NOW};
use super::Checked;

/// A place of the memory, how many bytes are put there, the number, and whether it stays valid.
pub type Change = (usize, usize, u32, bool);

const TIMES: [Change; 5] = [
    (288, 4, 0, true), (288, 4, NOW, true), (288, 4, LATEST, true), (288, 4, LATEST + 1, false), (288, 4, u32::MAX, false),
];

/// About the limits of the updates, and numbers that have one of them in their low bits.
const UPDATES: [u8; 14] = [0, 1, 2, 62, 63, 64, 65, 127, 128, 129, 191, 192, 254, 255];

/// With G 2: no number of groups but 1 to 64. (With another the disk's length is wrong.)
const GROUPS: [Change; 6] = [
    (292, 1, 0, false), (292, 1, 65, false), (292, 1, 66, false), (292, 1, 128, false), (292, 1, 129, false), (292, 1, 255, false),
];

/// With G 2 and group 1 held, whose count is at 36.
const HELD: [Change; 13] = [
    (293, 1, 0, true), (293, 1, 1, true), (293, 1, 2, false), (293, 1, 3, false), (293, 1, 16, false), (293, 1, 64, false),
    (293, 1, 254, false), (36, 4, 0, false), (36, 4, 1, true), (36, 4, u32::MAX - 1, true), (36, 4, u32::MAX, false),
    (32, 4, 0, true), (32, 4, u32::MAX, true),
];

/// With G 2 and none held: the counts below G are free.
const NONE_HELD: [Change; 4] = [(32, 4, 0, true), (32, 4, u32::MAX, true), (36, 4, 0, true), (36, 4, u32::MAX, true)];

pub fn check(pair: &mut Pair) -> Checked {
    let start = pair.index;
    for held in [255, 1] {
        changes(held).into_iter().try_for_each(|change| one(pair, held, change))?;
        (0..=255).try_for_each(|number| counted(pair, held, number))?;
    }
    numbers_of_groups(|memory, disk, valid| sent(pair, memory, disk, valid))?;
    Ok(format!("validity: {} calls", pair.index - start))
}

/// With G 2 and group 1 held, or none: the changes to each clause but Q-4's.
pub fn changes(held: u8) -> Vec<Change> {
    let of_held = if held == 1 { HELD.as_slice() } else { NONE_HELD.as_slice() };
    let mut list = [TIMES.as_slice(), GROUPS.as_slice(), of_held].concat();
    list.extend((40..288).flat_map(|at| [(at, 1, 1, false), (at, 1, 128, false)]));
    list.extend((296..808).flat_map(|at| [(at, 1, 1, held == 1), (at, 1, 128, held == 1)]));
    list.extend((0..32).map(|at| (at, 1, 200, true)));
    list
}

/// Document 02's Q-4: byte 294 is 1 to 63 with a page held and 0 with none, and byte 295 is 0. A box whose page is held from before
/// Q-4 has 0 in both.
pub fn counts(held: u8, number: u8) -> [Change; 2] {
    let valid = if held == 255 { number == 0 } else { (1..=63).contains(&number) };
    [(294, 1, number as u32, valid), (295, 1, number as u32, number == 0)]
}

pub fn put_change(memory: &mut [u8], (at, size, number, _): Change) {
    match size {
        1 => memory[at] = number as u8,
        _ => put_number(memory, at, number),
    }
}

/// The memory takes the change. Where it stays valid it gets a sync, a restart and an identify;
/// where not, every kind, or one of them if the place is one of the many of the held page. A list
/// goes to each such box as well.
fn one(pair: &mut Pair, held: u8, change: Change) -> Result<(), String> {
    let (at, _, _, valid) = change;
    let kinds = match valid {
        true => vec![7, 8, 10],
        false if at >= PRESENT.page => vec![1 + at as u32 % 10],
        false => (1..=10).chain(UNKNOWN).collect(),
    };
    sent_each(pair, held, change, kinds)
}

/// About the limits of Q-4's bytes every kind is sent, and else one of them and an update. An archive without one half of the
/// clause, or with another limit, is found here.
fn counted(pair: &mut Pair, held: u8, number: u8) -> Result<(), String> {
    let kinds: Vec<u32> = match UPDATES.contains(&number) {
        true => (1..=10).collect(),
        false => vec![1 + number as u32 % 10, 4 + number as u32 % 3],
    };
    counts(held, number).into_iter().try_for_each(|change| sent_each(pair, held, change, kinds.clone()))
}

fn sent_each(pair: &mut Pair, held: u8, change: Change, kinds: Vec<u32>) -> Result<(), String> {
    let (_, _, _, valid) = change;
    for kind in kinds {
        let mut made = situation(kind, held, Questions::NONE, 0);
        put_change(&mut made.memory, change);
        made.call.now = if valid { LATEST } else { NOW };
        pair.load(&made.memory, &made.disk);
        pair.expect(&made.call, if valid { 0 } else { 1 })?;
        pair.load(&made.memory, &made.disk);
        pair.expect_list(&List::new(&[70], made.call.now), if valid { Ok(1) } else { Err(1) })?;
    }
    Ok(())
}

/// Each number of groups with the disk of its length: 1 to 64 are valid. The counts from G on are to
/// be 0; the held group is to be below G.
pub fn numbers_of_groups(mut send: impl FnMut(&[u8], &[u8], bool) -> Result<(), String>) -> Result<(), String> {
    for groups in 0..=66u8 {
        let mut memory = vec![0; PRESENT.size];
        memory[PRESENT.groups] = groups;
        memory[PRESENT.held] = 255;
        let disk = vec![0; groups as usize * 33_280];
        let valid = (1..=64).contains(&groups);
        send(&memory, &disk, valid)?;
        if !valid {
            continue;
        }
        for at in unused(groups as usize) {
            memory[at] = 1;
            send(&memory, &disk, false)?;
            memory[at] = 0;
        }
        // The groups of the box have a count that fits a held one.
        (0..groups as usize).for_each(|group| memory[COUNTS + 4 * group] = 1);
        memory[PRESENT.updates] = 1;
        for held in [0, groups - 1, groups, groups + 1, 16, 63, 64, 65, 254] {
            memory[PRESENT.held] = held;
            send(&memory, &disk, held < groups)?;
        }
    }
    Ok(())
}

/// Bytes of the counts from G on: the first count's, one here and there, and the last.
fn unused(groups: usize) -> impl Iterator<Item = usize> {
    let counts = COUNTS + 4 * groups..PRESENT.last_time;
    let last = (!counts.is_empty()).then_some(PRESENT.last_time - 1);
    counts.clone().take(4).chain(counts.skip(4).step_by(13)).chain(last)
}

/// An identify and a list to the box.
fn sent(pair: &mut Pair, memory: &[u8], disk: &[u8], valid: bool) -> Result<(), String> {
    pair.load(memory, disk);
    pair.expect(&Call::new(10, 0, 0, 0), if valid { 0 } else { 1 })?;
    pair.expect_list(&List::new(&[0], 0), if valid { Ok(1) } else { Err(1) })
}
