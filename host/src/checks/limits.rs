//! Times, blocks, counts, locks and values at their limits.
use super::call::{even_page, put_number, Call, GROUP, LATEST, MEMORY};
use super::pair::Pair;
use super::places::PRESENT;
use super::Checked;

const HIGHEST_COUNT: u32 = u32::MAX - 1;
const GROUPS: [u8; 14] = [1, 2, 3, 4, 8, 12, 15, 16, 17, 32, 33, 62, 63, 64];

/// Kind, the entry's word and stamp, now and value, and the number by hand.
const UPDATES: [(u32, u32, u32, u32, u32, u32); 24] = [
    (4, 0, 1, 0, 2_147_483_647, 0),
    (4, 0, 1, 0, 2_147_483_648, 10),
    (4, 1, 1, 0, 5, 9),
    (4, 1, 1, 1, 5, 0),
    (4, 1, 0, 1, 5, 9),
    (5, 1, 1, 0, 0, 9),
    (5, 0, 0, 2_147_483_647, 0, 0),
    (5, 2_147_483_647, 0, 2_147_483_647, 0, 0),
    (5, 2_147_483_648, 0, 2_147_483_647, 0, 10),
    (5, 2_147_483_648, 0, 0, 0, 0),
    (5, 4_294_967_294, 0, 0, 0, 0),
    (5, 4_294_967_294, 0, 1, 0, 10),
    (5, 4_294_967_295, 0, 0, 0, 10),
    (6, 1, 1, 1, 0, 9),
    (6, 2_147_483_646, 0, 0, 1, 0),
    (6, 2_147_483_647, 0, 0, 1, 10),
    (6, 2_147_483_648, 0, 0, 0, 10),
    (6, 4_294_967_294, 1, 0, 1, 0),
    (6, 4_294_967_294, 1, 0, 2, 10),
    (6, 4_294_967_295, 1, 0, 0, 0),
    (6, 4_294_967_295, 1, 0, 1, 10),
    (6, 2, 1, 1, 4_294_967_293, 0),
    (6, 2, 1, 1, 4_294_967_294, 10),
    (6, 2, 1, 1, 4_294_967_295, 10),
];

/// A box, none held, whose pages have all entries alike.
fn box_of(groups: u8, last_time: u32, word: u32, stamp: u32) -> (Vec<u8>, Vec<u8>) {
    let mut memory = vec![0; MEMORY];
    memory[..32].fill(9);
    memory[PRESENT.groups] = groups;
    memory[PRESENT.held] = 255;
    put_number(&mut memory, PRESENT.last_time, last_time);
    let mut disk = vec![0xB0; GROUP * groups as usize];
    for group in disk.chunks_exact_mut(GROUP) {
        group[GROUP - 512..].copy_from_slice(&even_page(word, stamp));
    }
    (memory, disk)
}

/// An entry that lets a kind pass at any time.
fn fitting(kind: u32) -> (u32, u32) {
    if kind == 4 { (0, 1) } else { (5, 0) }
}

pub fn check(pair: &mut Pair) -> Checked {
    let start = pair.index;
    times(pair)?;
    GROUPS.into_iter().try_for_each(|groups| blocks(pair, groups))?;
    for count in [0, 1, 2, HIGHEST_COUNT - 2, HIGHEST_COUNT - 1, HIGHEST_COUNT, u32::MAX] {
        counts(pair, count)?;
    }
    for (kind, word, stamp, now, value, number) in UPDATES {
        let (memory, disk) = box_of(1, now, word, stamp);
        pair.load(&memory, &disk);
        let call = pair.good(kind, 0, now, value);
        pair.expect(&call, number)?;
    }
    entries(pair)?;
    for lock in [0, 1, 2, 500, LATEST - 1, LATEST] {
        [0, 1000, LATEST - 2, LATEST - 1, LATEST].into_iter().try_for_each(|now| unfrozen(pair, lock, now))?;
    }
    Ok(format!("limits: {} calls", pair.index - start))
}

fn times(pair: &mut Pair) -> Result<(), String> {
    for last in [0, 1, 1000, LATEST - 1, LATEST] {
        let around = [last.saturating_sub(1), last, last + 1];
        for now in around.into_iter().chain([0, LATEST - 1, LATEST, LATEST + 1, u32::MAX - 1, u32::MAX]) {
            for kind in 1..=10 {
                let (word, stamp) = fitting(kind);
                let (memory, disk) = box_of(1, last, word, stamp);
                pair.load(&memory, &disk);
                let call = pair.good(kind, 0, now, 0);
                pair.expect(&call, if (last..=LATEST).contains(&now) { 0 } else { 4 })?;
            }
        }
    }
    Ok(())
}

fn blocks(pair: &mut Pair, groups: u8) -> Result<(), String> {
    let end = 64 * groups as u32;
    let (memory, disk) = box_of(groups, 7, 5, 0);
    pair.load(&memory, &disk);
    for block in [0, 63, 64, 65, end - 1, end, end + 1, 1023, 1024, 4095, 4096, 1 << 31, u32::MAX] {
        for kind in [1, 2, 6, 5] {
            let call = pair.good(kind, block, 7, 0);
            pair.expect(&call, if block < end { 0 } else { 5 })?;
        }
        let call = pair.good(4, block, 13, 1);
        pair.expect(&call, if block < end { 0 } else { 5 })?;
        // The later kinds ignore the block.
        for kind in [7, 8, 9, 10] {
            pair.expect(&Call::new(kind, block, 13 + kind, 200 + kind), 0)?;
        }
        pair.load(&memory, &disk);
    }
    for group in [0, 1, groups as u32 - 1, groups as u32, 15, 16, 63, 64, 255, 256, u32::MAX] {
        pair.expect(&Call::new(3, group, 7, 0), if group < groups as u32 { 0 } else { 5 })?;
    }
    Ok(())
}

/// One count of two groups' at its limits: an update of the group, and a restart after it; then
/// with the group held from the start.
fn counts(pair: &mut Pair, count: u32) -> Result<(), String> {
    for kind in [4, 5, 6] {
        let (word, stamp) = fitting(kind);
        let (mut memory, disk) = box_of(2, 50, word, stamp);
        put_number(&mut memory, 36, count);
        pair.load(&memory, &disk);
        pair.expect(&Call::new(3, 1, 50, 0), 0)?;
        let call = pair.good(kind, 100, 50, 3);
        pair.expect(&call, if count < HIGHEST_COUNT { 0 } else { 8 })?;
        pair.expect(&Call::new(3, 1, 50, 0), 0)?;
        // Raised by the update to the highest, the count is raised once more, and then exhausted.
        pair.expect(&Call::new(8, 0, 51, 0), 0)?;
        let call = pair.good(kind, 101, 51, 3);
        pair.expect(&call, if count < HIGHEST_COUNT - 2 { 0 } else { 8 })?;
        pair.expect(&Call::new(9, 0, 52, 0), 0)?;
        let call = pair.good(kind, 102, 52, 3);
        pair.expect(&call, 0)?;
        if (1..=HIGHEST_COUNT).contains(&count) {
            memory[PRESENT.held] = 1;
            memory[PRESENT.page..].copy_from_slice(&even_page(word, stamp));
            // Behind the update the page is still held; or it has left.
            for updates in [1, 63] {
                memory[PRESENT.updates] = updates;
                pair.load(&memory, &disk);
                let call = pair.good(kind, 100, 50, 3);
                pair.expect(&call, if count < HIGHEST_COUNT { 0 } else { 8 })?;
                [2, 7, 3].into_iter().try_for_each(|kind| pair.expect(&Call::new(kind, 1, 60, 0), 0))?;
            }
        }
    }
    Ok(())
}

/// Words, flags, times and values at their limits, with a tag that fits: what is read off the
/// entry, and what questions 9 and 10 say to each update.
fn entries(pair: &mut Pair) -> Result<(), String> {
    for now in [0, 1000, LATEST] {
        let words = [0, 1, 2, now.saturating_sub(1), now, now + 1, LATEST - 1, LATEST, LATEST + 1, u32::MAX - LATEST];
        let late = [u32::MAX - 2 - now, u32::MAX - 1 - now, u32::MAX - now, u32::MAX - 1, u32::MAX];
        for word in words.into_iter().chain(late) {
            for stamp in [0, 1, 2 * now, 2 * now + 1, u32::MAX - 1, u32::MAX] {
                let (memory, disk) = box_of(1, now, word, stamp);
                for value in [0, 1, LATEST - 1, LATEST, LATEST + 1, u32::MAX - 1, u32::MAX] {
                    for kind in [2, 4, 5, 6] {
                        pair.load(&memory, &disk);
                        let call = pair.good(kind, 63, now, value);
                        pair.command(&call)?;
                    }
                }
            }
        }
    }
    Ok(())
}

/// Document 02's Q-2, at the times about the end of an unfrozen lock: a block with a lock of 1 or more is
/// held up to and including the time of the unfreeze plus the lock, and one with lock 0 not at all.
fn unfrozen(pair: &mut Pair, lock: u32, now: u32) -> Result<(), String> {
    let end = now + lock;
    for time in [now, end.saturating_sub(1), end, end + 1] {
        if !(now..=LATEST).contains(&time) {
            continue;
        }
        let (memory, disk) = box_of(1, now, lock, 0);
        pair.load(&memory, &disk);
        let (grown, written) = if lock > 0 && time <= end { (0, 9) } else { (9, 0) };
        for (kind, time, number) in [(5, now, 0), (2, time, 0), (6, time, grown), (4, time, written)] {
            let call = pair.good(kind, 9, time, 0);
            pair.expect(&call, number)?;
        }
    }
    Ok(())
}
