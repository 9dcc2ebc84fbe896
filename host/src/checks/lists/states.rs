//! What lists answer in boxes of few groups and of many, with the held page in a named group, in
//! another, or none: blocks in any order, with repeats, in lists of every length. The time moves on
//! from list to list.
use super::super::pair::Pair;
use super::super::server::numbers;
use super::super::Checked;
use super::{accepted, as_entries, box_of, LAST_TIME, NONE, NOW};
use crate::random::Random;

const GROUPS: [usize; 14] = [1, 2, 3, 4, 5, 8, 13, 15, 16, 17, 32, 33, 63, 64];

pub fn check(pair: &mut Pair, seed: u64) -> Checked {
    let start = pair.table.lists();
    let mut random = Random::new(seed);
    for groups in GROUPS {
        for held in [NONE, 0, groups as u8 / 2, groups as u8 - 1] {
            let (memory, disk) = box_of(groups, held);
            pair.load(&memory, &disk);
            every_block(pair, groups as u32)?;
            repeats(pair, groups as u32)?;
            every_length(pair, groups, &mut random)?;
        }
    }
    sets_of_groups(pair)?;
    Ok(format!("states: {} lists", pair.table.lists() - start))
}

/// Every block of the box, sixty-four to a list: in order, backwards, and so that neighbours in the
/// list lie in different groups. The first list is at an earlier time, when fewer have lapsed.
fn every_block(pair: &mut Pair, groups: u32) -> Result<(), String> {
    let all = 64 * groups;
    let forth: Vec<u32> = (0..all).collect();
    let back: Vec<u32> = (0..all).rev().collect();
    let spread: Vec<u32> = (0..all).map(|i| i % groups * 64 + i / groups).collect();
    for (order, now) in [(forth, LAST_TIME + 1), (back, NOW - 1), (spread, NOW)] {
        for list in order.chunks(64) {
            accepted(pair, list, now)?;
        }
    }
    Ok(())
}

/// One number throughout, and the numbers of two blocks by turns, in the first and the last group.
fn repeats(pair: &mut Pair, groups: u32) -> Result<(), String> {
    let last = 64 * groups - 1;
    for list in [vec![last; 64], [last, 0].repeat(32), [1, last - 1, 1].to_vec()] {
        as_entries(pair, &list, NOW + 1)?;
    }
    Ok(())
}

fn every_length(pair: &mut Pair, groups: usize, random: &mut Random) -> Result<(), String> {
    for len in 1..=64 {
        let mut list = numbers(random, groups);
        list = list.iter().copied().cycle().take(len).collect();
        accepted(pair, &list, NOW + 1 + len as u32)?;
    }
    Ok(())
}

/// Every set of eight groups, each named twice: downwards and then upwards.
fn sets_of_groups(pair: &mut Pair) -> Result<(), String> {
    for held in [NONE, 3] {
        let (memory, disk) = box_of(8, held);
        pair.load(&memory, &disk);
        for set in 1..1 << 8 {
            let named = (0..8).filter(|group| set >> group & 1 == 1);
            let down = named.clone().rev().map(|group| 64 * group + group);
            let list: Vec<u32> = down.chain(named.map(|group| 64 * group + 63 - group)).collect();
            accepted(pair, &list, NOW)?;
        }
    }
    Ok(())
}
