//! Which block is taken: for every last taken block and reserve of boxes with few free blocks, against a rule that is
//! written here another way: of the free blocks besides the reserve, the nearest behind the last taken one.
use super::super::call::put_number;
use super::super::Checked;
use super::stores::{Put, Stores, Told};
use super::{
    box_of, set_entry, set_records, some_records, started, BLANK, COUNTING, FROZEN, LAPSED, LAST_AT, NOW, RESERVE_AT,
};

pub fn check(stores: &mut Stores) -> Checked {
    let before = stores.pair.index;
    for last in (0..=66).chain([127, 1023, 1024, 4096, u32::MAX]) {
        for free in [&[][..], &[0], &[63], &[17, 40], &[0, 63], &[0, 1, 2], &[5, 6, 62, 63], &[30, 31, 32, 33]] {
            for reserve in free.iter().copied().chain([8, 64, u32::MAX]) {
                one(stores, 1, free, last, reserve)?;
            }
        }
    }
    for last in [0, 1, 62, 63, 64, 65, 126, 127, 128, 500, 1022, 1023, 1024] {
        for groups in [2, 16] {
            let end = 64 * groups as u32;
            for free in [&[0, 1][..], &[63, 64], &[62, 63, 64], &[end - 1, 0, 64], &[end - 2, end - 1]] {
                for reserve in free.iter().copied().chain([3]) {
                    one(stores, groups, free, last, reserve)?;
                }
            }
        }
    }
    for last in [0, 1023, 4094, 4095, 4096] {
        for free in [&[1023, 1024][..], &[4094, 4095], &[4095, 0, 64]] {
            one(stores, 64, free, last, free[0])?;
            one(stores, 64, free, last, 3)?;
        }
    }
    whole_boxes(stores)?;
    Ok(format!("search: {} calls", stores.pair.index - before))
}

/// Of these blocks the nearest behind the last taken one, going round a box of so many blocks. A last taken one that is
/// not in the box is as its last block.
fn nearest(free: impl Iterator<Item = u32>, last: u32, blocks: u32) -> Option<u32> {
    let from = last.min(blocks - 1);
    free.min_by_key(|block| (block + blocks - from - 1) % blocks)
}

/// The nearest of the free blocks, where there are two besides the reserve.
fn taken(free: &[u32], last: u32, reserve: u32, blocks: u32) -> Result<u32, u32> {
    let spare = free.iter().copied().filter(|block| *block != reserve);
    if spare.clone().count() < 2 {
        return Err(14);
    }
    nearest(spare, last, blocks).ok_or(14)
}

/// All other blocks are frozen or counting; the free ones never written or lapsed, by turns.
fn one(stores: &mut Stores, groups: usize, free: &[u32], last: u32, reserve: u32) -> Result<(), String> {
    let blocks = 64 * groups as u32;
    let (memory, mut disk) = box_of(groups, FROZEN);
    (0..blocks).step_by(3).for_each(|block| set_entry(&mut disk, block, COUNTING));
    for (turn, block) in free.iter().enumerate() {
        set_entry(&mut disk, *block, if turn % 2 == 0 { LAPSED } else { BLANK });
    }
    let mut state = started(500);
    put_number(&mut state, LAST_AT, last);
    put_number(&mut state, RESERVE_AT, reserve);
    let right = taken(free, last, reserve, blocks);
    for pending in [0, 1, 62] {
        set_records(&mut state, &some_records(pending));
        stores.load(&state, &memory, &disk);
        let log = pending == 62 && right.is_ok();
        let number = if reserve >= blocks { 5 } else if free.contains(&reserve) { 0 } else { 9 };
        stores.expect_put(&Put::new(200, NOW), if log && number != 0 { Err(number) } else { right })?;
        next_reserve(stores, log && number == 0, free, right.unwrap_or(0), reserve)?;
        stores.load(&state, &memory, &disk);
        let flushed = if pending == 0 { 0 } else { right.err().unwrap_or(number) };
        stores.expect_flush(NOW, Told::default(), flushed)?;
        next_reserve(stores, pending > 0 && flushed == 0, free, last, reserve)?;
    }
    Ok(())
}

/// After a log block is stored, the next reserve is the nearest of the blocks that are still free behind the last
/// taken one, besides the old reserve; and it is the last taken one itself.
fn next_reserve(stores: &Stores, stored: bool, free: &[u32], last: u32, reserve: u32) -> Result<(), String> {
    if !stored {
        return Ok(());
    }
    let now = stores.now();
    let left = free.iter().copied().filter(|block| *block != reserve && now.free(*block, NOW));
    let right = nearest(left, last, now.blocks());
    if Some(now.reserve()) == right && Some(now.last_taken()) == right {
        return Ok(());
    }
    Err(format!("search: next reserve {} and last taken {} instead of {right:?}", now.reserve(), now.last_taken()))
}

/// Empty boxes are filled, block by block: all but the reserve's and one more.
fn whole_boxes(stores: &mut Stores) -> Result<(), String> {
    for groups in [1, 2, 16, 17] {
        stores.load_started(groups, 100)?;
        let (mut right, mut reserve) = (0, 0);
        for turn in 1.. {
            let before = stores.now();
            if before.spare(NOW) < 2 {
                stores.expect_put(&Put::new(0, NOW), Err(14))?;
                break;
            }
            right += 1;
            stores.expect_put(&Put::new(turn % 256, NOW), Ok(right))?;
            if turn % 63 == 0 {
                right += 1;
                reserve = right;
            }
            if stores.now().reserve() != reserve {
                return Err(format!("search: the reserve after {turn} puts is not {reserve}"));
            }
        }
    }
    Ok(())
}
