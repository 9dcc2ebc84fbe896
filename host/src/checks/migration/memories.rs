//! Random memories, valid and damaged, into buffers that are mostly right. Which clauses a memory breaks is found by the tester.
use super::super::call::{number, put_number, LATEST};
use super::super::places::{COUNTS, OLD, PRESENT};
use super::super::Checked;
use super::seen::Seen;
use super::{Migrations, NONE};
use crate::random::Random;

const LIMITS: [u32; 8] = [0, 1, 2, LATEST, LATEST + 1, u32::MAX - 2, u32::MAX - 1, u32::MAX];

pub fn check(migrations: &mut Migrations, seed: u64, count: usize) -> Checked {
    let mut random = Random::new(seed);
    let mut seen = Seen::default();
    for _ in 0..count {
        let mut old = valid(&mut random);
        for _ in 0..[0, 0, 1, 1, 1, 2, 3][random.below(7)] {
            damage(&mut old, &mut random);
        }
        let len = if random.below(20) == 0 { [0, 616, 807, 809, random.below(1700)][random.below(5)] } else { PRESENT.size };
        let broken = broken(&old);
        seen.memory(&old, &broken, len == PRESENT.size);
        migrations.expect(&old, len, if broken.is_empty() && len == PRESENT.size { 0 } else { 1 })?;
    }
    seen.print();
    Ok(format!("random memories: {count} migrations, {}", seen.check()?))
}

/// Of any groups, with a page held in two cases of three.
fn valid(random: &mut Random) -> Vec<u8> {
    let mut old = vec![0; OLD.size];
    let groups = 1 + random.below(16);
    random.fill(&mut old[..COUNTS]);
    for group in 0..groups {
        let count = [random.next() as u32, LIMITS[random.below(8)]][random.below(2)];
        put_number(&mut old, COUNTS + 4 * group, count);
    }
    let time = [random.below(1 << 31) as u32, 0, LATEST][random.below(3)];
    put_number(&mut old, OLD.last_time, time);
    old[OLD.groups] = groups as u8;
    old[OLD.held] = NONE;
    if random.below(3) > 0 {
        let held = random.below(groups);
        let count = number(&old, COUNTS + 4 * held).clamp(1, u32::MAX - 1);
        put_number(&mut old, COUNTS + 4 * held, count);
        old[OLD.held] = held as u8;
        old[OLD.updates] = [1, 63, 1 + random.below(63) as u8][random.below(3)];
        random.fill(&mut old[OLD.page..]);
    }
    old
}

/// Changes one field, or a bit, or the length.
fn damage(old: &mut Vec<u8>, random: &mut Random) {
    if old.len() != OLD.size {
        return;
    }
    let byte = random.next() as u8;
    match random.below(12) {
        0 => put_number(old, OLD.last_time, LIMITS[random.below(8)]),
        1 => old[OLD.groups] = [0, 15, 16, 17, 63, 64, 65, byte][random.below(8)],
        2 => old[OLD.held] = [0, 15, 16, 63, 64, 254, 255, byte][random.below(8)],
        3 => old[OLD.updates] = [0, 1, 62, 63, 64, 65, byte][random.below(7)],
        4 => old[OLD.zero] = byte,
        5 | 6 => put_number(old, COUNTS + 4 * random.below(16), LIMITS[random.below(8)]),
        7 => old[OLD.page + random.below(512)] = byte,
        8 => (old[OLD.held], old[OLD.updates]) = (NONE, 0),
        9 => old.resize([0, 615, 617, 808, random.below(1000)][random.below(5)], 0),
        10 => old[OLD.last_time + random.below(8)] ^= 1 << random.below(8),
        _ => old[random.below(OLD.size)] ^= 1 << random.below(8),
    }
}

/// The clauses of document 01, with document 02's Q-4, that the memory breaks. What hangs on G or on the held group is only asked
/// where these are in range.
fn broken(old: &[u8]) -> Vec<&'static str> {
    if old.len() != OLD.size {
        return vec!["length"];
    }
    let (groups, held, updates) = (old[OLD.groups] as usize, old[OLD.held], old[OLD.updates]);
    let in_range = (1..=16).contains(&groups);
    let from_end = COUNTS + 4 * groups.min(16);
    let count = if held < 16 { number(old, COUNTS + 4 * held as usize) } else { 1 };
    let clauses = [
        ("no groups", groups == 0),
        ("17 to 64 groups", (17..=64).contains(&groups)),
        ("more than 64 groups", groups > 64),
        ("a group held that is not there", in_range && held != NONE && held as usize >= groups),
        ("the last time", number(old, OLD.last_time) > LATEST),
        ("counts from G on", in_range && old[from_end..OLD.last_time].iter().any(|byte| *byte != 0)),
        ("byte 103", old[OLD.zero] != 0),
        ("a held group's count of 0", held != NONE && count == 0),
        ("a held group's count that is too high", held != NONE && count == u32::MAX),
        ("a held page without updates", held != NONE && updates == 0),
        ("a held page of too many updates", held != NONE && updates > 63),
        ("updates and none held", held == NONE && updates != 0),
        ("page bytes and none held", held == NONE && old[OLD.page..].iter().any(|byte| *byte != 0)),
    ];
    clauses.into_iter().filter(|(_, broken)| *broken).map(|(name, _)| name).collect()
}
