//! Lists at the limits of times, of block numbers and of entries.
use super::super::call::{put_number, LATEST};
use super::super::pair::Pair;
use super::super::places::PRESENT;
use super::super::Checked;
use super::{as_entries, box_of, groups_named, List, NONE, NOW};

pub fn check(pair: &mut Pair) -> Checked {
    let start = pair.table.lists();
    times(pair)?;
    (1..=64).try_for_each(|groups| numbers(pair, groups))?;
    places(pair)?;
    [0, 1, 1000, LATEST - 1, LATEST].into_iter().try_for_each(|now| entries(pair, now))?;
    Ok(format!("limits of lists: {} lists", pair.table.lists() - start))
}

fn times(pair: &mut Pair) -> Result<(), String> {
    for last in [0, 1, 1000, LATEST - 1, LATEST] {
        let around = [last.saturating_sub(1), last, last + 1];
        for now in around.into_iter().chain([0, LATEST - 1, LATEST, LATEST + 1, u32::MAX - 1, u32::MAX]) {
            let (mut memory, disk) = box_of(1, NONE);
            put_number(&mut memory, PRESENT.last_time, last);
            pair.load(&memory, &disk);
            let right = if (last..=LATEST).contains(&now) { Ok(1) } else { Err(4) };
            pair.expect_list(&List::new(&[63, 0, 1, 2], now), right)?;
        }
    }
    Ok(())
}

/// Numbers about the box's end, alone, first and last; some are in range in their low bits.
fn numbers(pair: &mut Pair, groups: usize) -> Result<(), String> {
    let end = 64 * groups as u32;
    let (memory, disk) = box_of(groups, groups as u8 - 1);
    pair.load(&memory, &disk);
    for number in [0, 63, end - 1, end, end + 1, 1023, 1024, 4095, 4096, 4097, 65_536, 1 << 24, 1 << 31, u32::MAX - 1, u32::MAX] {
        for list in [&[number][..], &[0, number], &[number, 0], &[end - 1, number, 0]] {
            let right = if number < end { Ok(groups_named(list.iter().copied())) } else { Err(5) };
            pair.expect_list(&List::new(list, NOW), right)?;
        }
    }
    Ok(())
}

/// One number out of range, at each place of lists of each length.
fn places(pair: &mut Pair) -> Result<(), String> {
    let (memory, disk) = box_of(1, 0);
    pair.load(&memory, &disk);
    for len in 1..=64 {
        for place in 0..len {
            let mut list = List::new(&vec![place as u32; len], NOW);
            list.put(place, 63);
            pair.expect_list(&list, Ok(1))?;
            list.put(place, if place % 2 == 0 { 64 } else { u32::MAX });
            pair.expect_list(&list, Err(5))?;
        }
    }
    Ok(())
}

/// Words and stamps at their limits, each with each, on the disk and on the held page: what the list
/// shows of them is what kind 2 shows.
fn entries(pair: &mut Pair, now: u32) -> Result<(), String> {
    let words = [
        0, 1, now.saturating_sub(1), now, now + 1, LATEST - 1, LATEST, LATEST + 1, u32::MAX - LATEST, u32::MAX - now,
        u32::MAX - 1, u32::MAX,
    ];
    let stamps = [0, 1, 2 * now, 2 * now + 1, u32::MAX - 1];
    let (mut memory, mut disk) = box_of(2, 0);
    put_number(&mut memory, PRESENT.last_time, now);
    for index in 0..64 {
        let (word, stamp) = (words[index % words.len()], stamps[index % stamps.len()]);
        for entry in [&mut memory[PRESENT.page + 8 * index..], &mut disk[129 * 512 + 8 * index..]] {
            put_number(entry, 0, word);
            put_number(entry, 4, stamp);
        }
    }
    pair.load(&memory, &disk);
    for list in [0..64u32, 64..128] {
        as_entries(pair, &list.rev().collect::<Vec<u32>>(), now)?;
    }
    Ok(())
}
