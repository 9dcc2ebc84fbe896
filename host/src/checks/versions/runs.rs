//! Random runs: boxes of 1 to 3, of 16 and of the most groups, empty, nearly full or with entries of any bytes, each with a long run of an
//! office's puts, others' commands between them, and states and boxes that are made unusual.
use super::super::call::{put_number, LATEST};
use super::super::places::of;
use super::super::Checked;
use super::office::Office;
use super::stores::Stores;
use super::{set_count, set_entry, set_newest, set_records, BLANK, LAST_AT, LOCK_AT, RESERVE_AT};
use crate::random::Random;

const CALLS: usize = 400;

pub fn check(seed: u64, count: usize) -> Checked {
    Ok(format!("runs: {}", run(Stores::default(), seed, count, &[])?))
}

/// The runs by these stores, which meet every situation but the ones named.
pub fn run(mut stores: Stores, seed: u64, count: usize, not_met: &[&str]) -> Checked {
    let mut random = Random::new(seed);
    let (mut made, mut boxes) = (0, 0);
    while made < count {
        start(&mut stores, &mut random)?;
        let calls = calls(stores.now().blocks()).min(count - made);
        let mut office = Office { stores: &mut stores, random: &mut random };
        (0..calls).try_for_each(|_| office.step())?;
        made += calls;
        boxes += 1;
    }
    stores.seen.print();
    let seen = stores.seen.check_but(not_met)?;
    Ok(format!("{made} calls to {boxes} boxes, {seen}"))
}

/// Fewer where the disk to be compared is long.
fn calls(blocks: u32) -> usize {
    match blocks {
        0..=128 => CALLS,
        129..=1024 => CALLS / 4,
        _ => CALLS / 16,
    }
}

/// A formatted box and a started store; in some, the pages, the counts, the time or the state are unusual.
fn start(stores: &mut Stores, random: &mut Random) -> Result<(), String> {
    let most = stores.pair.model.most_groups;
    let groups = [1, 1, 1, 1, 1, 1, 1, 1, 2, 2, 2, 2, 2, 2, 16, most][random.below(16)];
    let lock = [1, 2, 5, 5, 20, 20, 300, LATEST - random.below(3) as u32][random.below(8)];
    stores.load_started(groups, lock)?;
    let mut now = stores.now();
    if random.below(6) == 0 {
        let at = of(&now.memory).last_time;
        put_number(&mut now.memory, at, LATEST - random.below(300) as u32);
    }
    if random.below(5) == 0 {
        for group in 0..groups {
            set_count(&mut now.memory, group, u32::MAX - random.below(60) as u32);
        }
    }
    match random.below(5) {
        0 => any_pages(&mut now.disk, random),
        1 => few_free(&mut now.disk, random),
        _ => {}
    }
    if random.below(3) == 0 {
        any_state(&mut now.state, groups, most, random);
    }
    stores.load(&now.state, &now.memory, &now.disk);
    Ok(())
}

/// Entries of any bytes.
fn any_pages(disk: &mut [u8], random: &mut Random) {
    for group in disk.chunks_exact_mut(65 * 512) {
        random.fill(&mut group[64 * 512..]);
    }
}

/// All blocks are frozen but a few.
fn few_free(disk: &mut [u8], random: &mut Random) {
    let blocks = (disk.len() / (65 * 512) * 64) as u32;
    (0..blocks).for_each(|block| set_entry(disk, block, (50, 0)));
    for _ in 0..random.below(7) {
        let free = random.below(blocks as usize) as u32;
        set_entry(disk, free, if random.below(2) == 0 { BLANK } else { (random.below(99) as u32, 7) });
    }
}

/// A state of records, blocks and a lock that it might have in another box.
fn any_state(state: &mut [u8], groups: usize, most: usize, random: &mut Random) {
    let block = |random: &mut Random| match random.below(8) {
        0 => random.below(64 * most) as u32,
        _ => random.below(64 * groups) as u32,
    };
    let pending = [0, 1, 61, 62, random.below(63)][random.below(5)];
    let records: Vec<(u32, u32)> = (0..pending).map(|_| (random.below(256) as u32, block(random))).collect();
    set_records(state, &records);
    for _ in 0..random.below(20) {
        set_newest(state, random.below(8) as u32, block(random));
    }
    for at in [RESERVE_AT, LAST_AT] {
        let number = match random.below(4) {
            0 => [0, 63, 64, 1023, 1024, 4095, 4096, u32::MAX][random.below(8)],
            _ => block(random),
        };
        put_number(state, at, number);
    }
    if random.below(4) == 0 {
        put_number(state, LOCK_AT, 1 + random.below(40) as u32);
    }
}
