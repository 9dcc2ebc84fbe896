//! Which situations a call was in, by what was there before it and what it answered.
use super::super::call::{number, LATEST};
use super::super::places;
use super::seen::Seen;
use super::snapshot::Snapshot;
use super::stores::Put;
use super::{BLANK, MOST_PENDING, STATE};
use crate::versions::Refusal;

/// What a put's commands are for.
#[derive(PartialEq)]
enum Role {
    Question,
    Write,
    Unfreeze,
    Log,
}

fn role(command: u32, replaces: bool) -> Role {
    match (command, replaces) {
        (0, _) => Role::Question,
        (1, _) => Role::Write,
        (2, true) => Role::Unfreeze,
        _ => Role::Log,
    }
}

/// `reserve` is that after the put.
pub fn of_put(seen: &mut Seen, before: &Snapshot, put: &Put, done: Result<u32, Refusal>, reserve: u32) {
    if let Some(Refusal { number, .. }) = done.err().filter(|refusal| refusal.command == 0) {
        return of_question(seen, before, put, number);
    }
    let replaced = before.newest(put.part);
    match done {
        Ok(block) => {
            of_block(seen, before, put, block);
            of_groups(seen, before, replaced, block, reserve);
        }
        Err(refusal) => of_command_refused(seen, before, put, replaced, refusal),
    }
}

/// A put that was refused before its commands.
fn of_question(seen: &mut Seen, before: &Snapshot, put: &Put, number: u32) {
    let now = put.now;
    let state_wrong = put.told.state.is_some() || before.state.len() != STATE;
    match number {
        1 if put.told.memory.is_some() => seen.note("invalid memory", true),
        1 => seen.note("invalid state", state_wrong || before.pending() > MOST_PENDING || before.lock() == 0),
        4 => {
            seen.note("time gone back", now < before.last_time());
            seen.note("time over the limit", now > LATEST);
        }
        13 => seen.note("13 with all else wrong", put.told.memory.is_some() && put.content.len() != 512),
        14 => {
            let (spare, reserve_free) = (before.spare(now), before.free(before.reserve(), now));
            seen.note("one block free besides the reserve", spare == 1 && !reserve_free);
            seen.note("one block free, and the reserve", spare == 1 && reserve_free);
            seen.note("no block free", spare == 0 && !reserve_free);
        }
        _ => {}
    }
}

/// Where an accepted put's block was found.
fn of_block(seen: &mut Seen, before: &Snapshot, put: &Put, block: u32) {
    let (now, last, reserve, blocks) = (put.now, before.last_taken(), before.reserve(), before.blocks());
    let first = if last < blocks { last + 1 } else { 0 };
    let mut passed = (first..first + blocks).map(|b| b % blocks).take_while(|b| *b != block);
    let (spare, reserve_free) = (before.spare(now), before.free(reserve, now));
    let blank = before.entry(block) == BLANK;
    seen.note("a block that was never written taken", blank);
    seen.note("a lapsed block taken", !blank);
    seen.note("the search goes round", last < blocks && block <= last);
    seen.note("a free reserve passed over", reserve_free && passed.clone().any(|b| b == reserve));
    seen.note("a frozen block passed over", passed.clone().any(|b| before.frozen(b)));
    seen.note("a counting block passed over", passed.any(|b| !before.frozen(b) && !before.free(b, now)));
    seen.note("two blocks free besides the reserve", spare == 2 && reserve_free);
    seen.note("two blocks free, and the reserve is not", spare == 2 && !reserve_free);
    seen.note("last taken out of the box", last >= blocks);
    seen.note("reserve out of the box", reserve >= blocks);
    seen.note("at the last time", now == before.last_time());
    seen.note("at the latest time", now == LATEST);
}

/// Where an accepted put's commands went.
fn of_groups(seen: &mut Seen, before: &Snapshot, replaced: Option<u32>, block: u32, reserve: u32) {
    let (group, held, log) = (block / 64, before.held(), before.pending() == MOST_PENDING);
    for name in [(1, "a box of 1 group"), (2, "a box of 2 groups"), (16, "a box of 16 groups"), (64, "a box of 64 groups")] {
        seen.note(name.1, before.blocks() == 64 * name.0);
    }
    seen.note("the replaced version is the block taken", replaced == Some(block));
    seen.note("a version replaced in its own group", replaced.is_some_and(|old| old / 64 == group));
    seen.note("a version replaced in another group", replaced.is_some_and(|old| old / 64 != group));
    seen.note("a record's part put again", replaced.is_some() && before.pending() > 0);
    seen.note("none held", held == 255);
    seen.note("the version's group held", held == group);
    seen.note("another group held", held != 255 && held != group);
    seen.note("the log block with a version replaced", log && replaced.is_some());
    seen.note("the log block without one", log && replaced.is_none());
    seen.note("the log block in the version's group", log && before.reserve() / 64 == group);
    seen.note("the log block in another group", log && before.reserve() / 64 != group);
    seen.note("the next reserve in another group", log && reserve / 64 != group);
    seen.note("the next reserve is the version replaced", log && replaced == Some(reserve));
    let old = replaced.map(|old| old / 64);
    let stored = log.then_some(before.reserve() / 64);
    let left = left_at(before, &[Some(group), old, stored]);
    seen.note("a page leaves at the write", left == Some(0));
    seen.note("a page leaves at the unfreeze", left == Some(1));
    seen.note("a page leaves at the log block", left == Some(2));
}

/// At which of the commands, to these groups in order, the held page leaves by itself.
fn left_at(before: &Snapshot, groups: &[Option<u32>]) -> Option<usize> {
    let (mut held, mut updates) = (before.held(), before.updates());
    groups.iter().position(|group| {
        let Some(group) = *group else {
            return false;
        };
        updates = if group == held { updates + 1 } else { 1 };
        held = group;
        updates == 64
    })
}

/// A put of which a command was refused.
fn of_command_refused(seen: &mut Seen, before: &Snapshot, put: &Put, replaced: Option<u32>, refusal: Refusal) {
    let reserve = before.reserve();
    let one_group = before.blocks() == 64 && before.held() == 0;
    seen.note("a page leaves before a command that is refused", one_group && before.updates() + refusal.command > 64);
    match (role(refusal.command, replaced.is_some()), refusal.number) {
        (Role::Write, 6) => seen.note("content of a wrong length", put.content.len() != 512),
        (Role::Write, 8) => seen.note("8 at the write", true),
        (Role::Unfreeze, 8) => {
            seen.note("8 at the unfreeze", true);
            let group = replaced.unwrap_or(0) as usize / 64;
            let count = number(&before.memory, 32 + 4 * group);
            seen.note("8 at the unfreeze by the write's count", count == u32::MAX - 2);
        }
        (Role::Unfreeze, 9) => {
            seen.note("9 at the unfreeze", true);
            seen.note("9 at an unfreeze of the reserve", replaced == Some(reserve) && before.free(reserve, put.now));
        }
        (Role::Unfreeze, 5) => seen.note("5 at the unfreeze", true),
        (Role::Unfreeze, 10) => seen.note("10 at the unfreeze", true),
        (Role::Log, 8) => seen.note("8 at the log block", true),
        (Role::Log, 9) => {
            seen.note("9 at the log block", true);
            seen.note("9 at the log block by the unfreeze before it", replaced == Some(reserve));
        }
        (Role::Log, 5) => seen.note("5 at the log block", true),
        _ => {}
    }
}

pub fn of_flush(seen: &mut Seen, before: &Snapshot, now: u32, done: Result<(), Refusal>) {
    let pending = if before.state.len() == STATE { before.pending() } else { 0 };
    let at = places::of(&before.memory);
    let memory_invalid = before.memory.len() != at.size || before.memory[at.zero] != 0;
    match done {
        Ok(()) => {
            seen.note("a flush without records", pending == 0);
            seen.note("a flush without records, invalid memory", pending == 0 && memory_invalid);
            seen.note("a flush of one record", pending == 1);
            seen.note("a flush of 62 records", pending == MOST_PENDING);
            let left = pending > 0 && left_at(before, &[Some(before.reserve() / 64)]).is_some();
            seen.note("a page leaves in a flush", left);
        }
        Err(Refusal { number: 1, .. }) => {
            seen.note("a flush, invalid state", !memory_invalid);
            seen.note("a flush, invalid memory", memory_invalid);
        }
        Err(Refusal { number: 5, .. }) => seen.note("a flush to a reserve out of the box", true),
        Err(Refusal { number: 8, .. }) => seen.note("a flush with its count spent", true),
        Err(Refusal { number: 9, .. }) => {
            seen.note("a flush to a reserve that is not free", !before.free(before.reserve(), now))
        }
        Err(_) => {}
    }
}

/// What others' commands did to the store.
pub fn of_command(seen: &mut Seen, before: &Snapshot, kind: u32, block: u32, number: u32) {
    if number != 0 {
        return;
    }
    let newest = (0..256).any(|part| before.newest(part) == Some(block));
    match kind {
        4 => {
            seen.note("the reserve written by others", block == before.reserve());
            seen.note("a newest version's block written by others", newest);
        }
        5 => seen.note("a newest version unfrozen by others", newest),
        6 => seen.note("a newest version lengthened by others", newest),
        7 => seen.note("sync", true),
        8 => {
            seen.note("restart", true);
            seen.note("restart with a page held", before.held() != 255);
        }
        9 => seen.note("new salt", true),
        _ => {}
    }
}
