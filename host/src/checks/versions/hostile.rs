//! Others' commands between a store's calls, and boxes that no store has left: the numbers are written here by hand.
use super::super::call::put_number;
use super::super::Checked;
use super::stores::{Put, Stores, Told};
use super::{
    box_of, set_count, set_entry, set_newest, set_records, some_records, started, BLANK, FROZEN, LAPSED, LAST_AT, NOW,
    RESERVE_AT,
};

const PART: u32 = 9;
/// The highest count; an update is accepted below it.
const SPENT: u32 = u32::MAX - 1;

pub fn check(stores: &mut Stores) -> Checked {
    let before = stores.pair.index;
    commanded(stores)?;
    for pending in [0, 61, 62] {
        (0..=3).try_for_each(|left| counts(stores, pending, left))?;
    }
    replaced(stores)?;
    reserve_replaced(stores)?;
    block_replaced(stores)?;
    next_reserve(stores)?;
    Ok(format!("others' commands: {} calls", stores.pair.index - before))
}

/// A store on a formatted box with one version of the part, in block 1, at time 1000.
fn one_version(stores: &mut Stores) -> Result<(), String> {
    stores.load_started(2, 50)?;
    stores.expect_put(&Put::new(PART, 1000), Ok(1))
}

/// Versions and the reserve commanded by others on a real box.
fn commanded(stores: &mut Stores) -> Result<(), String> {
    // The version is unfrozen: 9, until its lock has passed and the block is taken as a free one.
    one_version(stores)?;
    stores.expect_command(5, 1, 1000, 0)?;
    stores.expect_put(&Put::new(PART, 1000), Err(9))?;
    stores.expect_put(&Put::new(PART, 1051), Err(9))?;
    stores.expect_put(&Put::new(PART + 1, 1051), Ok(2))?;
    // It is lengthened: the unfreeze counts the longer lock.
    one_version(stores)?;
    stores.expect_command(6, 1, 1000, 100)?;
    stores.expect_put(&Put::new(PART, 1000), Ok(2))?;
    stores.expect_command(6, 1, 1150, 1)?;
    stores.expect_command(4, 3, 1152, 5)?;
    // Another writes the reserve: puts go on, and the log block gets 9.
    one_version(stores)?;
    stores.expect_command(4, 0, 1000, 7)?;
    stores.expect_put(&Put::new(PART, 1001), Ok(2))?;
    stores.expect_flush(1001, Told::default(), 9)?;
    stores.expect_command(5, 0, 1001, 0)?;
    stores.expect_flush(1008, Told::default(), 9)?;
    stores.expect_flush(1009, Told::default(), 0)?;
    // A restart loses version and lock: the block is free on the disk's page, and is no longer frozen.
    one_version(stores)?;
    stores.expect_command(8, 0, 1001, 0)?;
    stores.expect_put(&Put::new(PART, 1001), Err(9))?;
    // A sync before the restart keeps it; so does a new salt.
    one_version(stores)?;
    stores.expect_command(7, 0, 1001, 0)?;
    stores.expect_command(8, 0, 1001, 0)?;
    stores.expect_put(&Put::new(PART, 1001), Ok(2))?;
    stores.expect_command(9, 0, 1002, 0)?;
    stores.expect_put(&Put::new(PART, 1002), Ok(3))
}

/// A box of two groups: the version goes to block 100, the replaced one is 90 and the reserve 80. The count of group 1
/// lets so many updates through.
fn counts(stores: &mut Stores, pending: usize, left: u32) -> Result<(), String> {
    let (mut memory, mut disk) = box_of(2, BLANK);
    set_count(&mut memory, 1, SPENT - left);
    set_entry(&mut disk, 90, FROZEN);
    let mut state = started(500);
    put_number(&mut state, RESERVE_AT, 80);
    put_number(&mut state, LAST_AT, 99);
    set_newest(&mut state, PART, 90);
    set_records(&mut state, &some_records(pending));
    let log = u32::from(pending == 62);
    for (part, needed) in [(PART, 2 + log), (PART + 1, 1 + log)] {
        stores.load(&state, &memory, &disk);
        stores.expect_put(&Put::new(part, NOW), if left >= needed { Ok(100) } else { Err(8) })?;
    }
    // With the reserve in the other group the log block asks nothing of this count.
    put_number(&mut state, RESERVE_AT, 3);
    stores.load(&state, &memory, &disk);
    stores.expect_put(&Put::new(PART, NOW), if left >= 2 { Ok(100) } else { Err(8) })?;
    // And with the version in the other group it is the unfreeze that asks.
    put_number(&mut state, LAST_AT, 9);
    stores.load(&state, &memory, &disk);
    stores.expect_put(&Put::new(PART, NOW), if left >= 1 { Ok(10) } else { Err(8) })?;
    stores.load(&state, &memory, &disk);
    stores.expect_put(&Put::new(PART + 1, NOW), Ok(10))
}

/// The replaced version's entry and block: its state, an expiry over the limit, a group that the box does not have.
fn replaced(stores: &mut Stores) -> Result<(), String> {
    let now = 2_147_483_647;
    for (entry, at, right) in [
        (FROZEN, NOW, Ok(1)),
        (BLANK, NOW, Err(9)),
        ((NOW, 2001), NOW, Err(9)),
        ((NOW + 1, 2001), NOW, Err(9)),
        ((2_147_483_647, 2000), now, Ok(1)),
        ((2_147_483_648, 2000), now, Err(10)),
        ((4_294_967_295 - NOW - 1, 2000), NOW, Ok(1)),
        ((4_294_967_295 - NOW, 2000), NOW, Err(10)),
        ((4_294_967_295, 2000), NOW, Err(10)),
        ((0, 2000), NOW, Ok(1)),
    ] {
        for pending in [0, 62] {
            load(stores, 1, 40, pending, &[(40, entry)]);
            stores.expect_put(&Put::new(PART, at), right)?;
        }
    }
    for (groups, block, right) in [
        (1, 63, Ok(1)), (1, 64, Err(5)), (1, 1023, Err(5)), (2, 127, Ok(1)), (2, 128, Err(5)), (16, 1023, Ok(1)),
        (16, 1024, Err(5)), (16, 4095, Err(5)), (64, 1024, Ok(1)), (64, 4095, Ok(1)),
    ] {
        for pending in [0, 62] {
            load(stores, groups, block, pending, &[(block.min(64 * groups as u32 - 1), FROZEN)]);
            stores.expect_put(&Put::new(PART, NOW), right)?;
        }
    }
    Ok(())
}

/// A store with so many records in a box of blank entries besides these. The part's version is in this block.
fn load(stores: &mut Stores, groups: usize, version: u32, pending: usize, entries: &[(u32, (u32, u32))]) {
    let (memory, mut disk) = box_of(groups, BLANK);
    entries.iter().for_each(|(block, entry)| set_entry(&mut disk, *block, *entry));
    let mut state = started(500);
    set_newest(&mut state, PART, version);
    set_records(&mut state, &some_records(pending));
    stores.load(&state, &memory, &disk);
}

/// The part's newest block is the reserve, block 0.
fn reserve_replaced(stores: &mut Stores) -> Result<(), String> {
    for (pending, entry, right) in [
        (0, BLANK, Err(9)),
        (0, FROZEN, Ok(1)),
        // The unfreeze passes, and the reserve is not free for the log block.
        (62, FROZEN, Err(9)),
        // With lock 0 it is free at once.
        (62, (0, 2000), Ok(1)),
    ] {
        load(stores, 1, 0, pending, &[(0, entry)]);
        stores.expect_put(&Put::new(PART, NOW), right)?;
    }
    Ok(())
}

/// The part's newest block is lapsed and taken again: the new version is unfrozen as soon as it is written.
fn block_replaced(stores: &mut Stores) -> Result<(), String> {
    for pending in [0, 61, 62] {
        load(stores, 1, 1, pending, &[(1, LAPSED)]);
        stores.expect_put(&Put::new(PART, NOW), Ok(1))?;
        let entry = stores.now().entry(1);
        if entry != (NOW + 501, 2 * NOW + 1) {
            return Err(format!("the entry of a version that replaces itself is {entry:?}"));
        }
    }
    Ok(())
}

/// The next reserve is sought in the box that the commands before it left, behind the block just taken: a version with lock 0
/// that the put unfreezes is free by then, and counts for the reserve though not for question 14.
fn next_reserve(stores: &mut Stores) -> Result<(), String> {
    for (version, lock, block, next) in [(2, 0, 1, 2), (2, 1, 1, 3), (1, 0, 2, 3), (1, 1, 2, 3)] {
        load(stores, 1, version, 62, &[(version, (lock, 2000))]);
        stores.expect_put(&Put::new(PART, NOW), Ok(block))?;
        let now = stores.now();
        if (now.reserve(), now.last_taken()) != (next, next) {
            return Err(format!("the reserve after block {block} is {} instead of {next}", now.reserve()));
        }
    }
    // The blocks 1 and 2 are free besides the reserve; with 2 frozen under lock 0 it is one too few.
    for (entry, right) in [(BLANK, Ok(1)), ((0, 2000), Err(14))] {
        let rest: Vec<(u32, (u32, u32))> = (3..64).map(|block| (block, FROZEN)).chain([(2, entry)]).collect();
        load(stores, 1, 5, 62, &rest);
        stores.expect_put(&Put::new(PART, NOW), right)?;
    }
    Ok(())
}
