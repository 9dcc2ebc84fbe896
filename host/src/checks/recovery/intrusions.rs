//! Random runs. In each box either a store that is alone up to X and an intruder after it, with Q-6's promise itself: at clocks before
//! X + R the archive and the host find the store's map at X, and each block so named reads as the content that was put. Or a box of
//! any damage, in which the two are compared.
use super::super::call::LATEST;
use super::super::places::last_time;
use super::super::versions::BLOCK;
use super::super::Checked;
use super::attacker::Attacker;
use super::damaged;
use super::office::{Kept, Office};
use super::walks::{Walk, Walks};
use crate::random::Random;

pub fn check(seed: u64, count: usize) -> Checked {
    Ok(format!("runs: {}", run(Walks::default(), seed, count)?))
}

pub fn run(mut walks: Walks, seed: u64, count: usize) -> Checked {
    let mut random = Random::new(seed);
    let (mut boxes, mut kept) = (0, 0);
    while walks.made < count {
        boxes += 1;
        if random.below(3) > 0 {
            damaged::run(&mut walks, &mut random)?;
            continue;
        }
        let found = Office::new(&mut walks, &mut random)?.run()?;
        if let Some(at_point) = found {
            kept += 1;
            intrusion(&mut walks, &mut random, &at_point)?;
        }
    }
    walks.seen.print();
    let seen = walks.seen.check()?;
    Ok(format!("{} walks in {boxes} boxes, {kept} of them with an intrusion, {seen}", walks.made))
}

fn intrusion(walks: &mut Walks, random: &mut Random, kept: &Kept) -> Result<(), String> {
    promised(walks, kept, kept.point)?;
    let steps = [0, 4, 15, 40, 90][random.below(5)];
    let mut attacker = Attacker::new(walks, random, kept, steps);
    for _ in 0..steps {
        attacker.step()?;
        if attacker.random.below(3) == 0 {
            look(attacker.walks, attacker.random, kept)?;
        }
    }
    look(walks, random, kept)?;
    let end = (kept.point as u64 + kept.lock as u64 - 1).min(LATEST as u64) as u32;
    if last_time(walks.stores.pair.memory()) <= end {
        promised(walks, kept, end)?;
        reads_back(walks, kept, end)?;
    }
    // Past the promise, and as of other times, the two are only compared.
    let earlier = kept.point.saturating_sub(random.below(400) as u32);
    for point in [kept.point, kept.point.wrapping_sub(1), kept.point + 1, earlier, LATEST] {
        let now = last_time(walks.stores.pair.memory()).max(end).saturating_add(random.below(40) as u32).min(LATEST);
        walks.seen.note("a walk past the promise");
        walks.traced(&Walk::new(point, now))?;
    }
    Ok(())
}

/// A walk at the last time or later, and now and then the contents.
fn look(walks: &mut Walks, random: &mut Random, kept: &Kept) -> Result<(), String> {
    let last = last_time(walks.stores.pair.memory());
    let left = (kept.point as u64 + kept.lock as u64).min(LATEST as u64 + 1).saturating_sub(last as u64) as usize;
    if left == 0 {
        return walks.traced(&Walk::new(kept.point, last)).map(|_| ());
    }
    promised(walks, kept, last + random.below(left) as u32)?;
    if random.below(4) == 0 {
        reads_back(walks, kept, last)?;
    }
    Ok(())
}

/// At this clock the walk finds the store's own map at X.
fn promised(walks: &mut Walks, kept: &Kept, now: u32) -> Result<(), String> {
    let number = walks.traced(&Walk::new(kept.point, now))?;
    if number != 0 || walks.found() != kept.map {
        return Err(format!("the map at X {} and R {}, now {now}: {number}, {:?}, not {:?}", kept.point, kept.lock, walks.found(), kept.map));
    }
    walks.seen.note(if now == kept.point { "the map at X itself" } else { "the map at a later time" });
    walks.seen.note_if("the map in its last second", now > kept.point && now - kept.point == kept.lock - 1);
    Ok(())
}

/// Each block of the map reads as the content that was put.
fn reads_back(walks: &mut Walks, kept: &Kept, now: u32) -> Result<(), String> {
    for (part, block) in &kept.map {
        walks.stores.expect_command(1, *block, now, 0)?;
        if walks.stores.pair.answer()[..BLOCK] != kept.contents[part][..] {
            return Err(format!("part {part} does not read back from block {block} at {now}, X {} and R {}", kept.point, kept.lock));
        }
    }
    walks.seen.note_if("the versions read back", !kept.map.is_empty());
    Ok(())
}
