//! Long runs of updates: to one group, 200 of them, and between two groups by turns, after each number of updates at which something
//! could change; from each number of updates that a memory can have; and up to the last freshness count.
//!
//! Found here: a page that leaves once and then not again, or in one group and not in another; a count that goes on where the group
//! changes, or is kept for the group that comes back; a page that leaves without its freshness count having risen.
use super::super::call::put_number;
use super::super::pair::Pair;
use super::super::places::PRESENT;
use super::super::Checked;
use super::{let_go, read_all, update, updated, Tally};

const HIGHEST_COUNT: u32 = u32::MAX - 1;
/// Groups of a box, and the one that is updated.
const LONG: [(u8, u32); 9] = [(1, 0), (2, 0), (2, 1), (3, 1), (16, 0), (16, 15), (17, 16), (64, 0), (64, 63)];
const LENGTHS: [u32; 9] = [1, 2, 31, 32, 62, 63, 64, 65, 130];

pub fn check(pair: &mut Pair) -> Checked {
    let start = pair.index;
    for (groups, group) in LONG {
        let mut tally = Tally::default();
        pair.load_formatted(groups, &[2; 32])?;
        (0..200).try_for_each(|turn| updated(pair, &mut tally, group, turn))?;
        read_all(pair, &tally)?;
    }
    for first in LENGTHS {
        LENGTHS.into_iter().try_for_each(|second| by_turns(pair, [first, second]))?;
    }
    (1..64).try_for_each(|updates| from(pair, updates))?;
    for left in [0, 1, 2, 62, 63, 64, 65, 127, 128, 129] {
        exhausted(pair, left)?;
    }
    Ok(format!("long runs of updates: {} calls", pair.index - start))
}

/// So many updates to group 0, so many to group 1, and again, until there were 150; then a restart.
fn by_turns(pair: &mut Pair, lengths: [u32; 2]) -> Result<(), String> {
    pair.load_formatted(2, &[3; 32])?;
    let (mut tally, mut turn) = (Tally::default(), 0);
    while turn < 150 {
        for group in [0, 1] {
            for _ in 0..lengths[group as usize] {
                updated(pair, &mut tally, group, turn)?;
                turn += 1;
            }
        }
    }
    let_go(pair, &mut tally, 8)?;
    read_all(pair, &tally)
}

/// A memory whose held page, of group 0, had so many updates: one of group 1, or those that are left.
fn from(pair: &mut Pair, updates: u32) -> Result<(), String> {
    pair.load_formatted(2, &[4; 32])?;
    updated(pair, &mut Tally::default(), 0, 0)?;
    pair.change_memory(|memory| memory[PRESENT.updates] = updates as u8);
    let (memory, disk) = (pair.memory().to_vec(), pair.disk().to_vec());
    for group in [0, 1] {
        let mut tally = Tally::new(0, updates);
        pair.load(&memory, &disk);
        (1..=66 - updates).try_for_each(|turn| updated(pair, &mut tally, group, turn))?;
        read_all(pair, &tally)?;
    }
    Ok(())
}

/// The group's freshness count lets so many updates through, and then 8 is answered, whatever is held; a restart raises it once more
/// where a page is held, and a new salt lets updates through again.
fn exhausted(pair: &mut Pair, left: u32) -> Result<(), String> {
    let mut tally = Tally::default();
    pair.load_formatted(2, &[5; 32])?;
    pair.change_memory(|memory| put_number(memory, 32, HIGHEST_COUNT - left));
    (0..left).try_for_each(|turn| updated(pair, &mut tally, 0, turn))?;
    for end in [8, 9] {
        let call = update(pair, 0, left);
        pair.expect(&call, 8)?;
        tally.holds(pair)?;
        read_all(pair, &tally)?;
        let_go(pair, &mut tally, end)?;
    }
    (0..65).try_for_each(|turn| updated(pair, &mut tally, 0, turn))
}
