//! Every reason for which the walk stops, at its limit and one off, with the blocks found written by hand.
//!
//! Found here: a walk that does not ask for a reason, or asks it of the wrong block, time or half of a pointer; one that takes the
//! records of the block at which it stops; one that does not end.
use super::super::versions::snapshot::Snapshot;
use super::super::versions::{set_entry, BLANK, NOW};
use super::super::Checked;
use super::made::{counting, frozen, lapsed, log_block, Entry};
use super::walks::Walks;
use super::{POINT, TIME};

/// Blocks that are frozen in each of these boxes, for records to name.
const NAMED: [u32; 3] = [10, 11, 12];
const ALL: [(u32, u32); 3] = [(1, 10), (2, 11), (3, 12)];

pub fn check(walks: &mut Walks) -> Checked {
    let before = walks.made;
    first_block(walks)?;
    for groups in [1, 2, 16, 17, 64] {
        second_block(walks, groups)?;
        pointers(walks, groups)?;
    }
    parents(walks)?;
    held(walks)?;
    cycles(walks)?;
    whole_boxes(walks)?;
    Ok(format!("stops: {} walks", walks.made - before))
}

/// A log of three blocks, each with a record of its own part: block 0, the second and the third.
fn three(groups: usize, second: u32, third: u32) -> Snapshot {
    let mut made = Snapshot::empty(groups);
    NAMED.into_iter().for_each(|block| made.set_entry(block, frozen(TIME)));
    for (block, record, pointer) in [(0, ALL[0], second), (second, ALL[1], third), (third, ALL[2], u32::MAX)] {
        made.log(block, &[record], pointer as u64);
    }
    made
}

/// Block 0 has no parent; for every other reason it stops the walk too, and nothing is found.
fn first_block(walks: &mut Walks) -> Result<(), String> {
    for (entry, found) in [
        (BLANK, 0), (lapsed(TIME), 0), (counting(TIME), 3), (frozen(TIME), 3), (frozen(0), 3), ((0, 0), 3), ((0, 2 * TIME), 3),
        (frozen(POINT), 1), (frozen(POINT + 1), 0), (counting(POINT), 1), (counting(POINT + 1), 0), ((u32::MAX, u32::MAX), 0),
    ] {
        let mut made = three(1, 1, 2);
        made.set_entry(0, entry);
        walks.expect_in(&made, POINT, NOW, &ALL[..found])?;
    }
    walks.expect_in(&Snapshot::empty(1), POINT, NOW, &[])
}

/// Each state and time of write of the second block, which is the first or the last of a group.
fn second_block(walks: &mut Walks, groups: usize) -> Result<(), String> {
    let last = 64 * groups as u32 - 1;
    for (second, third) in [(1, last), (last, 1), (63, 2), (last - 63, last - 1)] {
        for (entry, found) in [
            (frozen(TIME), 3), (counting(TIME), 3), ((0, 2 * TIME), 3), ((u32::MAX, 2 * TIME), 3),
            (lapsed(TIME), 1), (BLANK, 1), ((0, 2 * TIME + 1), 1), ((NOW - 1, 2 * TIME + 1), 1),
            (frozen(TIME - 1), 1), (counting(TIME - 1), 1), (frozen(TIME + 1), 2), (frozen(POINT), 2), (counting(POINT), 2),
            (frozen(POINT + 1), 1), (counting(POINT + 1), 1), (frozen(0), 1), (frozen((1 << 31) - 1), 1),
        ] {
            // With a box of one group the first and the last of these may be block 0.
            if second == 0 {
                continue;
            }
            let mut made = three(groups, second, third);
            made.set_entry(second, entry);
            walks.expect_in(&made, POINT, NOW, &ALL[..found])?;
        }
    }
    Ok(())
}

/// Block 0's pointer about the end of the box and of 32 bits, and with each of its upper bits set.
fn pointers(walks: &mut Walks, groups: usize) -> Result<(), String> {
    let end = 64 * groups as u64;
    let skipped = [ALL[0], ALL[2]];
    let mut cases: Vec<(u64, &[(u32, u32)])> = vec![(1, &ALL), (2, &skipped)];
    cases.extend([0, end - 1, end, end + 1, end + 64, u32::MAX as u64, u64::MAX].map(|pointer| (pointer, &ALL[..1])));
    // Each bit above the numbers of the largest box.
    cases.extend((12..64).map(|bit| (1 << bit | 1, &ALL[..1])));
    for (pointer, found) in cases {
        let mut made = three(groups, 1, 2);
        made.set_content(0, &log_block(&ALL[..1], pointer));
        walks.expect_in(&made, POINT, NOW, found)?;
    }
    // The same of the second block's pointer: to the end of the box, and to what is behind it.
    for (pointer, found) in [(end - 1, 3), (end, 2), (1 << 32 | (end - 1), 2), (1 << 63 | (end - 1), 2)] {
        let mut made = three(groups, 1, end as u32 - 1);
        made.set_content(1, &log_block(&ALL[1..2], pointer));
        walks.expect_in(&made, POINT, NOW, &ALL[..found])?;
    }
    Ok(())
}

/// A block is compared with the one whose pointer led to it, and with no other.
fn parents(walks: &mut Walks) -> Result<(), String> {
    for (times, found) in [
        ([2000, 2000, 2000], 3), ([2000, 2001, 2002], 3), ([2000, 2001, 2000], 2), ([2000, 2005, 2001], 2), ([2000, 2005, 2004], 2),
        ([2000, 2005, 2005], 3), ([2000, 1999, 2000], 1), ([2000, 1999, 1999], 1), ([0, 0, 0], 3), ([0, 1, 0], 2),
        ([0, POINT, POINT], 3), ([0, POINT, POINT - 1], 2), ([POINT; 3], 3), ([POINT, POINT, POINT + 1], 2), ([POINT, POINT - 1, POINT], 1),
    ] {
        let mut made = three(1, 63, 2);
        for (block, time) in [0, 63, 2].into_iter().zip(times) {
            made.set_entry(block, frozen(time));
        }
        walks.expect_in(&made, POINT, NOW, &ALL[..found])?;
        // The flag is no part of the time: the same with some of them counting.
        for (block, time) in [(0, times[0]), (2, times[2])] {
            made.set_entry(block, counting(time));
        }
        walks.expect_in(&made, POINT, NOW, &ALL[..found])?;
        made.set_entry(63, counting(times[1]));
        walks.expect_in(&made, POINT, NOW, &ALL[..found])?;
    }
    Ok(())
}

/// With the page of a block's group held, that page counts, and the one on the disk does not; of other groups the disk's does.
fn held(walks: &mut Walks) -> Result<(), String> {
    let good = frozen(TIME);
    let bad: [Entry; 5] = [BLANK, lapsed(TIME), frozen(TIME - 1), frozen(POINT + 1), counting(POINT + 1)];
    for (block, stopped) in [(0, 0), (70, 1), (130, 2)] {
        for entry in bad {
            // Block 0 has no parent, and goes on where it is older.
            let found = if block == 0 && entry == frozen(TIME - 1) { 3 } else { stopped };
            for held in 0..3 {
                let here = block / 64 == held;
                let mut made = three(3, 70, 130);
                made.hold(held as usize);
                set_entry(&mut made.disk, block, entry);
                walks.expect_in(&made, POINT, NOW, &ALL[..if here { 3 } else { found }])?;
                if here {
                    set_entry(&mut made.disk, block, good);
                    made.set_entry(block, entry);
                    walks.expect_in(&made, POINT, NOW, &ALL[..found])?;
                }
            }
        }
    }
    Ok(())
}

/// A pointer back to each of the blocks before it: the walk ends, and what was found stays.
fn cycles(walks: &mut Walks) -> Result<(), String> {
    for back in [0, 63, 2] {
        let mut made = three(1, 63, 2);
        made.set_content(2, &log_block(&ALL[2..], back));
        walks.expect_in(&made, POINT, NOW, &ALL)?;
    }
    // Blocks in a ring, all with a record of one part: what the last of them has stays, since none is taken twice.
    for (first, length) in (0..2).flat_map(|first| (1..=9).map(move |length| (first, length))) {
        let mut made = Snapshot::empty(1);
        let end = first + length;
        for block in 0..end {
            let next = if block + 1 == end { first } else { block + 1 };
            made.log(block, &[(9, block), (block + 20, block)], next as u64);
        }
        let mut found: Vec<(u32, u32)> = (0..end).map(|block| (block + 20, block)).collect();
        found.insert(0, (9, end - 1));
        walks.expect_in(&made, POINT, NOW, &found)?;
    }
    Ok(())
}

/// Every block of the box is a log block, in the order of their numbers, backwards, and by steps; the last one points to its own
/// number, to block 0, to one in the middle, or out of the box. A part's last record is in the last log block that has it.
fn whole_boxes(walks: &mut Walks) -> Result<(), String> {
    for (groups, step) in [(1, 1), (1, 63), (1, 37), (2, 127), (3, 5), (16, 1), (16, 1023), (16, 389), (17, 1087), (64, 1), (64, 1365)] {
        let end = 64 * groups as u32;
        // So many blocks are written in a second, two or more, so that all are by the point.
        let pace = if groups > 16 { 8 } else { 2 };
        let order: Vec<u32> = (0..end).map(|turn| turn * step % end).collect();
        let mut made = Snapshot::empty(groups);
        for (turn, block) in order.iter().enumerate() {
            let next = order.get(turn + 1).copied().unwrap_or(0);
            made.log(*block, &[(turn as u32 % 251, *block); 63], next as u64);
            made.set_entry(*block, [frozen, counting][turn % 2](TIME + (turn / pace) as u32));
        }
        let last = |upto: usize| -> Vec<(u32, u32)> {
            let first = upto.saturating_sub(251);
            let mut found: Vec<_> = (first..upto).map(|turn| (turn as u32 % 251, order[turn])).collect();
            found.sort();
            found
        };
        let (all, middle) = (order.len(), order.len() / 2);
        walks.expect_in(&made, POINT, NOW, &last(all))?;
        for pointer in [order[all - 1] as u64, order[middle] as u64, end as u64] {
            made.set_content(order[all - 1], &log_block(&[((all - 1) as u32 % 251, order[all - 1])], pointer));
            walks.expect_in(&made, POINT, NOW, &last(all))?;
        }
        // As of the time of the block in the middle, those behind it are too new: it stops there, and none of them counts.
        let point = TIME + (middle / pace) as u32;
        walks.expect(point, NOW, &last(pace * (middle / pace + 1)))?;
    }
    Ok(())
}
