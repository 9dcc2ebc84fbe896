//! Which records count, and which of several wins, with the blocks found written by hand.
//!
//! Found here: a record that counts though its part, its block, the block's state or its time of write is wrong, or does not count
//! though they are right; another than the last one that wins; a record that is left out, or the pointer taken for one.
use super::super::versions::snapshot::Snapshot;
use super::super::versions::{set_entry, BLANK, NOW};
use super::super::Checked;
use super::made::{counting, frozen, lapsed, log_block};
use super::walks::Walks;
use super::{PARTS, POINT, TIME};

pub fn check(walks: &mut Walks) -> Checked {
    let before = walks.made;
    parts(walks)?;
    [1, 2, 16, 64].into_iter().try_for_each(|groups| blocks(walks, groups))?;
    entries(walks)?;
    order(walks)?;
    places(walks)?;
    log_blocks(walks)?;
    held(walks)?;
    Ok(format!("records: {} walks", walks.made - before))
}

/// A log of block 0 alone, with these records. Block 10 is frozen since TIME.
fn one(groups: usize, records: &[(u32, u32)]) -> Snapshot {
    let mut made = Snapshot::empty(groups);
    made.log(0, records, u64::MAX);
    made.set_entry(10, frozen(TIME));
    made
}

/// Every part, and numbers above them, those with a part in their low byte too.
fn parts(walks: &mut Walks) -> Result<(), String> {
    for part in 0..PARTS {
        walks.expect_in(&one(1, &[(part, 10)]), POINT, NOW, &[(part, 10)])?;
    }
    for part in [256, 257, 263, 511, 512, 1024, 1 << 16, 1 << 16 | 7, 1 << 24 | 7, 1 << 31 | 7, u32::MAX - 255, u32::MAX - 1, u32::MAX] {
        walks.expect_in(&one(1, &[(part, 10)]), POINT, NOW, &[])?;
        // It leaves those before and behind it alone.
        walks.expect_in(&one(1, &[(7, 10), (part, 0), (255, 10)]), POINT, NOW, &[(7, 10), (255, 10)])?;
    }
    Ok(())
}

/// Blocks about the end of the box, and numbers above it, those with block 10 in their low bits too.
fn blocks(walks: &mut Walks, groups: usize) -> Result<(), String> {
    let end = 64 * groups as u32;
    for block in [1, 10, 62, 63, end - 64, end - 2, end - 1] {
        let mut made = one(groups, &[(7, block)]);
        made.set_entry(block, frozen(TIME));
        walks.expect_in(&made, POINT, NOW, &[(7, block)])?;
    }
    for block in [end, end + 1, end + 10, end + 64, 4096, 4106, 8192, 1 << 16 | 10, 1 << 24 | 10, 1 << 31 | 10, u32::MAX - 1, u32::MAX] {
        let mut made = one(groups, &[(7, block)]);
        (1..end).for_each(|block| made.set_entry(block, frozen(TIME)));
        walks.expect_in(&made, POINT, NOW, &[])?;
        made.set_content(0, &log_block(&[(7, 10), (7, block)], 0));
        walks.expect_in(&made, POINT, NOW, &[(7, 10)])?;
    }
    Ok(())
}

/// State and time of write of the block that the record names. It may be older than the log block.
fn entries(walks: &mut Walks) -> Result<(), String> {
    let latest = (1 << 31) - 1;
    for (entry, counts) in [
        (frozen(TIME), true), (counting(TIME), true), ((0, 2 * TIME), true), ((u32::MAX, 2 * TIME + 1), true),
        (lapsed(TIME), false), (BLANK, false), ((0, 2 * TIME + 1), false), ((NOW - 1, 2 * TIME + 1), false),
        (frozen(0), true), (counting(0), true), (frozen(TIME - 1), true), (frozen(TIME + 1), true),
        (frozen(POINT), true), (counting(POINT), true), (frozen(POINT + 1), false), (counting(POINT + 1), false),
        (lapsed(POINT), false), (frozen(latest), false), (counting(latest), false),
    ] {
        let mut made = one(1, &[(7, 20), (8, 10)]);
        made.set_entry(20, entry);
        let found = [(7, 20), (8, 10)];
        walks.expect_in(&made, POINT, NOW, if counts { &found } else { &found[1..] })?;
    }
    Ok(())
}

/// Several records of one part, in one log block and in two: the last that counts wins, whatever the others name. Block 20 is written
/// later than 10 and 30, 21 is free, 22 too new and 64 out of the box.
fn order(walks: &mut Walks) -> Result<(), String> {
    for (blocks, right) in [
        (vec![10, 20], 20), (vec![20, 10], 10), (vec![10, 20, 30], 30), (vec![30, 20, 10], 10), (vec![10, 10, 20, 10], 10),
        (vec![10, 21], 10), (vec![21, 10], 10), (vec![10, 20, 21, 22, 64], 20), (vec![10, 22], 10), (vec![22, 10, 22], 10),
        (vec![20, 64, 10, 64], 10), (vec![10, u32::MAX], 10), (vec![21, 22, 30, 21, 22], 30),
    ] {
        for cut in 0..=blocks.len() {
            let records: Vec<_> = blocks.iter().map(|block| (7, *block)).collect();
            let mut made = one(1, &records[..cut]);
            made.set_content(0, &log_block(&records[..cut], 1));
            made.log(1, &records[cut..], 0);
            for (block, entry) in [(20, frozen(POINT)), (21, lapsed(TIME)), (22, frozen(POINT + 1)), (30, counting(TIME - 100))] {
                made.set_entry(block, entry);
            }
            walks.expect_in(&made, POINT, NOW, &[(7, right)])?;
        }
    }
    Ok(())
}

/// A record at each place of a log block, alone; every place with a part of its own; and a pointer that would be a record.
fn places(walks: &mut Walks) -> Result<(), String> {
    for place in 0..63 {
        let mut records = vec![(u32::MAX, u32::MAX); 63];
        records[place] = (7, 10);
        walks.expect_in(&one(1, &records), POINT, NOW, &[(7, 10)])?;
        // An unused record does not end the log block, nor does one of zeros.
        records[..place].fill((9, 0));
        let found = [(7, 10), (9, 0)];
        walks.expect_in(&one(1, &records), POINT, NOW, if place == 0 { &found[..1] } else { &found })?;
    }
    let all: Vec<(u32, u32)> = (0..63).map(|place| (4 * place + 3, 10)).collect();
    walks.expect_in(&one(1, &all), POINT, NOW, &all)?;
    let mut made = one(1, &[]);
    made.set_content(0, &log_block(&[], 10 << 32 | 7));
    walks.expect_in(&made, POINT, NOW, &[])
}

/// A record may name a log block: this one, block 0, one that is yet to come, and the one at which the walk stops.
fn log_blocks(walks: &mut Walks) -> Result<(), String> {
    let mut made = one(1, &[]);
    made.set_content(0, &log_block(&[(1, 0), (2, 1), (3, 2)], 1));
    made.log(1, &[(4, 0), (5, 1)], 2);
    made.log(2, &[(6, 10)], 0);
    walks.expect_in(&made, POINT, NOW, &[(1, 0), (2, 1), (3, 2), (4, 0), (5, 1), (6, 10)])?;
    // Written before its parent it stops the walk, and counts as a block that is named.
    made.set_entry(2, frozen(TIME - 1));
    walks.expect_in(&made, POINT, NOW, &[(1, 0), (2, 1), (3, 2), (4, 0), (5, 1)])?;
    made.set_entry(2, frozen(POINT + 1));
    walks.expect_in(&made, POINT, NOW, &[(1, 0), (2, 1), (4, 0), (5, 1)])?;
    made.set_entry(2, BLANK);
    walks.expect_in(&made, POINT, NOW, &[(1, 0), (2, 1), (4, 0), (5, 1)])
}

/// The named block's entry is that of its group's current page.
fn held(walks: &mut Walks) -> Result<(), String> {
    for block in [20, 64, 127] {
        for held in 0..2 {
            for bad in [BLANK, lapsed(TIME), frozen(POINT + 1)] {
                for [on_disk, on_page] in [[frozen(TIME), bad], [bad, counting(TIME)]] {
                    let mut made = one(2, &[(7, block)]);
                    made.hold(held);
                    set_entry(&mut made.disk, block, on_disk);
                    let here = block as usize / 64 == held;
                    if here {
                        made.set_entry(block, on_page);
                    }
                    let counts = if here { on_page != bad } else { on_disk != bad };
                    walks.expect_in(&made, POINT, NOW, &[(7, block)][..usize::from(counts)])?;
                }
            }
        }
    }
    Ok(())
}
