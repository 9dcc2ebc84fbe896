//! Random runs: boxes of any number of groups, mostly of few, each with a long run of commands and lists.
use super::call::{put_number, GROUP, LATEST};
use super::pair::Pair;
use super::places::COUNTS;
use super::server::Server;
use super::Checked;
use crate::random::Random;

const COMMANDS: usize = 1000;
/// In so many boxes some page leaves by itself.
const MANY: usize = 50;

pub fn check(pair: &mut Pair, seed: u64, count: usize) -> Checked {
    let mut random = Random::new(seed);
    let mut old = Vec::new();
    let (mut sent, mut boxes, mut left) = (0, 0, 0);
    while sent < count {
        let any = 1 + random.below(pair.model.most_groups);
        let groups = [1, 1, 1, 1, 2, 2, 2, 3, 3, any][random.below(10)];
        start(pair, &mut random, groups)?;
        let run = commands(groups).min(count - sent);
        let mut server = Server::new(pair, &mut random, &mut old);
        (0..run).try_for_each(|_| server.step())?;
        left += server.left;
        sent += run;
        boxes += 1;
    }
    if boxes >= MANY && left == 0 {
        return Err(format!("no page has left by itself in {boxes} boxes"));
    }
    Ok(format!("runs: {sent} commands and lists to {boxes} boxes, {left} pages that left by themselves"))
}

/// Fewer where the disk to be compared is long.
fn commands(groups: usize) -> usize {
    match groups {
        1..=4 => COMMANDS,
        5..=16 => COMMANDS / 4,
        _ => COMMANDS / 16,
    }
}

/// A formatted box. In some the last time or the counts are near their end, or the pages have
/// entries of any bytes.
pub fn start(pair: &mut Pair, random: &mut Random, groups: usize) -> Result<(), String> {
    let mut disk = vec![0; GROUP * groups];
    random.fill(&mut disk[..GROUP]);
    let mut salt = [0; 32];
    random.fill(&mut salt);
    pair.load_formatted_over(&disk, random.next() as u8, groups as u32, &salt)?;
    let mut memory = pair.memory().to_vec();
    let mut disk = pair.disk().to_vec();
    if random.below(6) == 0 {
        put_number(&mut memory, pair.model.places.last_time, LATEST - random.below(4000) as u32);
    }
    if random.below(4) == 0 {
        for group in 0..groups {
            put_number(&mut memory, COUNTS + 4 * group, u32::MAX - random.below(40) as u32);
        }
    }
    if random.below(4) == 0 {
        for group in disk.chunks_exact_mut(GROUP) {
            random.fill(&mut group[GROUP - 512..]);
        }
    }
    pair.load(&memory, &disk);
    Ok(())
}
