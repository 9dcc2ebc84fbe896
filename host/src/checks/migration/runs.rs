//! The promise itself: the host's old box, and the archive from the memory that it migrated, side by side. Each event goes to both, and
//! the numbers, answers, disks, states and results are the same after each; and the archive's memory is the old one with the new
//! counts, all 0. The box is migrated again at any moment, with a page held or none.
use super::super::call::GROUP;
use super::super::leaving::between;
use super::super::pair::Pair;
use super::super::recovery::intrusions;
use super::super::recovery::walks::Walks;
use super::super::server::Server;
use super::super::versions::stores::Stores;
use super::super::{runs, versions, Checked};
use super::seen::Boxes;
use crate::random::Random;

/// The commands and lists to one box.
const EVENTS: usize = 250;
/// A box is migrated again after one event in so many.
const MIGRATED_EVERY: usize = 25;
/// What an old box's store does not meet: a larger box, and a memory that is not valid, which is not migrated.
const NOT_MET: [&str; 3] = ["a box of 64 groups", "a flush without records, invalid memory", "a flush, invalid memory"];

/// Commands of all kinds and lists, right and spoiled, to boxes of 1 to 16 groups by turns.
pub fn commands(seed: u64, count: usize) -> Checked {
    let mut pair = Pair::migrated();
    let mut random = Random::new(seed);
    let (mut old, mut boxes, mut left) = (Vec::new(), Boxes::default(), 0);
    for turn in 0..count.div_ceil(EVENTS) {
        runs::start(&mut pair, &mut random, 1 + turn % 16)?;
        boxes.note(pair.memory());
        let mut server = Server::new(&mut pair, &mut random, &mut old);
        (0..EVENTS).try_for_each(|_| event(&mut server, &mut boxes))?;
        left += server.left;
    }
    if left == 0 {
        return Err("no page has left by itself".into());
    }
    pair.table.print();
    let (pairs, boxes) = (pair.table.check_migrated()?, boxes.check()?);
    Ok(format!("commands side by side: {} events, {left} pages that left by themselves, {pairs}, {boxes}", pair.index))
}

fn event(server: &mut Server, boxes: &mut Boxes) -> Result<(), String> {
    server.step()?;
    if server.random.below(MIGRATED_EVERY) == 0 {
        boxes.note(server.pair.memory());
        server.pair.migrate_again();
    }
    Ok(())
}

/// A box migrated after each number of updates to its page, with which the page leaves or not, and what follows.
pub fn updates() -> Checked {
    Ok(format!("side by side, {}", between::check(&mut Pair::migrated())?))
}

/// Puts, flushes and others' commands.
pub fn stores(seed: u64, count: usize) -> Checked {
    let done = versions::runs::run(Stores::migrated(), seed, count, &NOT_MET)?;
    Ok(format!("stores side by side: {done}"))
}

/// Recoveries of damaged logs, and after intrusions.
pub fn recoveries(seed: u64, count: usize) -> Checked {
    let done = intrusions::run(Walks::migrated(), seed, count)?;
    Ok(format!("recoveries side by side: {done}"))
}

/// Disks of other lengths than the box's, whole and not only told: the same number from both.
pub fn disks(seed: u64) -> Checked {
    let mut pair = Pair::migrated();
    let (mut random, mut old) = (Random::new(seed), Vec::new());
    for len in [0, 1, 512, GROUP - 1, GROUP, GROUP + 1, 2 * GROUP, 2 * GROUP + 512, 3 * GROUP, 17 * GROUP, 64 * GROUP] {
        pair.load_formatted(2, &[1; 32])?;
        let (memory, mut disk) = (pair.memory().to_vec(), pair.disk().to_vec());
        disk.resize(len, 0xB0);
        pair.load(&memory, &disk);
        let mut server = Server::new(&mut pair, &mut random, &mut old);
        (0..40).try_for_each(|_| server.step())?;
    }
    Ok(format!("disks of any length: {} events", pair.index))
}
