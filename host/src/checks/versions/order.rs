//! Every set of questions says no at once to a put, and to a flush: the first in order is answered.
use super::super::call::{put_number, MEMORY};
use super::super::places::PRESENT;
use super::super::Checked;
use super::stores::{Put, Stores, Told};
use super::{
    box_of, set_count, set_entry, set_newest, set_records, some_records, started, BLANK, FROZEN, LAST_TIME, LOCK_AT, NOW,
};

/// What can be wrong with a call, in the order of the questions: a part, the state, the memory, the disk, the time, too
/// few free, and then the commands: the content, the write's count, the replaced version's state, the reserve's.
const WRONG: [(&str, u32); 10] = [
    ("part", 13), ("state", 1), ("memory", 1), ("disk", 2), ("time", 4), ("free", 14), ("content", 6), ("count", 8),
    ("replaced", 9), ("reserve", 9),
];
const IN_A_FLUSH: [&str; 7] = ["state", "memory", "disk", "time", "free", "count", "reserve"];
const PART: u32 = 9;
const TURNS: usize = 4;

struct Wrong(u32);

impl Wrong {
    fn has(&self, name: &str) -> bool {
        WRONG.iter().position(|(listed, _)| *listed == name).is_some_and(|bit| self.0 >> bit & 1 == 1)
    }

    /// The first number, of the questions that are put.
    fn first(&self, put: impl Fn(&str) -> bool) -> u32 {
        WRONG.iter().find(|(name, _)| put(name) && self.has(name)).map_or(0, |(_, number)| *number)
    }
}

pub fn check(stores: &mut Stores) -> Checked {
    let before = stores.pair.index;
    for set in 0..1 << WRONG.len() {
        let wrong = Wrong(set);
        for turn in 0..TURNS {
            let (put, told) = load(stores, &wrong, turn, 62);
            let right = wrong.first(|_| true);
            stores.expect_put(&put, if right == 0 { Ok(3) } else { Err(right) })?;
            load(stores, &wrong, turn, 7);
            stores.expect_flush(put.now, told, wrong.first(|name| IN_A_FLUSH.contains(&name)))?;
            load(stores, &wrong, turn, 0);
            stores.expect_flush(put.now, told, wrong.first(|name| name == "state"))?;
            load(stores, &wrong, turn, 0);
            let found = stores.block(put.part, told.state)?;
            let right = wrong.first(|name| ["part", "state"].contains(&name));
            if found.err().unwrap_or(0) != right {
                return Err(format!("order: block answered {found:?} instead of {right}"));
            }
        }
    }
    Ok(format!("order of a store's questions: {} calls", stores.pair.index - before))
}

/// A box of one group in which blocks 3 and 5 are free and 7 is the version to be replaced. The reserve is block 4.
fn load(stores: &mut Stores, wrong: &Wrong, turn: usize, pending: usize) -> (Put, Told) {
    let (mut memory, mut disk) = box_of(1, FROZEN);
    let mut state = started(500);
    put_number(&mut state, super::RESERVE_AT, 4);
    set_records(&mut state, &some_records(pending));
    set_newest(&mut state, PART, 7);
    let free: &[u32] = if wrong.has("free") { &[3] } else { &[3, 5] };
    free.iter().for_each(|block| set_entry(&mut disk, *block, BLANK));
    if !wrong.has("reserve") {
        set_entry(&mut disk, 4, BLANK);
    }
    if wrong.has("replaced") {
        set_entry(&mut disk, 7, (NOW + 1 + turn as u32, 2001));
    }
    if wrong.has("count") {
        set_count(&mut memory, 0, u32::MAX - (turn % 2) as u32);
    }
    let (put, told) = spoiled(&mut state, &mut memory, wrong, turn);
    stores.load(&state, &memory, &disk);
    (put, told)
}

/// Lets the questions say no that are asked of the call itself.
fn spoiled(state: &mut [u8], memory: &mut [u8], wrong: &Wrong, turn: usize) -> (Put, Told) {
    let mut put = Put::new(PART, NOW);
    let mut told = Told::default();
    if wrong.has("part") {
        put.part = [256, 257, 65_536 + PART, u32::MAX][turn];
    }
    if wrong.has("state") {
        match turn {
            0 => told.state = Some(1535),
            1 => told.state = Some(1537),
            2 => put_number(state, LOCK_AT, 0),
            _ => put_number(state, super::PENDING_AT, 63),
        }
    }
    if wrong.has("memory") {
        match turn {
            0 => told.memory = Some(MEMORY - 1),
            1 => told.memory = Some(MEMORY + 1),
            2 => memory[PRESENT.updates] = 1,
            _ => memory[PRESENT.page] = 1,
        }
    }
    if wrong.has("disk") {
        told.disk = Some([33_279, 33_281][turn % 2]);
    }
    if wrong.has("time") {
        put.now = [LAST_TIME - 1, 2_147_483_648, 0, u32::MAX][turn];
    }
    if wrong.has("content") {
        put.content.resize([511, 513, 0, 544][turn], 1);
    }
    put.told = told;
    (put, told)
}
