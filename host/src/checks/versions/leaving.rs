//! Pages that leave by themselves inside a put or a flush, document 02's request Q-4, with the tester's own count of the updates.
//!
//! Found here: a put that counts its commands as one update, or counts those that it only tries; one whose later commands take the
//! page from the memory after it has left; one that is refused when the page has left already, and leaves it on the disk; a put or a
//! flush that does not ask for the updates, and a flush without records that does.
use super::super::call::put_number;
use super::super::leaving::Tally;
use super::super::places::PRESENT;
use super::super::Checked;
use super::snapshot::Snapshot;
use super::stores::{Put, Stores, Told};
use super::{
    box_of, set_count, set_newest, set_records, some_records, started, BLANK, FROZEN, LAST_AT, LAST_TIME, MOST_PENDING, NOW,
    RESERVE_AT,
};

const PART: u32 = 9;
/// The highest count; an update is accepted below it.
const SPENT: u32 = u32::MAX - 1;

pub fn check(stores: &mut Stores) -> Checked {
    let before = stores.pair.index;
    for updates in [1, 2, 30, 60, 61, 62, 63] {
        (0..64).try_for_each(|way| inside(stores, updates, way))?;
    }
    refused(stores)?;
    for (groups, lock) in [(1, 5), (2, 9), (16, 9), (17, 9)] {
        long(stores, groups, lock)?;
    }
    for byte in 0..=255 {
        validity(stores, PRESENT.updates, byte)?;
        validity(stores, PRESENT.zero, byte)?;
    }
    Ok(format!("pages that leave in a put: {} calls", stores.pair.index - before))
}

/// A store with so many records on a box of two groups that holds a page, which differs from the one on the disk, after so many
/// updates. The next block is 10 of the first group named, the part's version 20 of the second, and the reserve 30 of the third.
fn holding(held: u32, updates: u8, [next, replaced, reserve]: [u32; 3], pending: usize) -> Snapshot {
    let (memory, disk) = box_of(2, BLANK);
    let mut made = Snapshot { state: started(500), memory, disk };
    [0, 1].into_iter().for_each(|group| set_count(&mut made.memory, group, 1000));
    made.memory[PRESENT.held..PRESENT.zero].copy_from_slice(&[held as u8, updates]);
    let page = 512 * (65 * held as usize + 64);
    made.memory[PRESENT.page..].copy_from_slice(&made.disk[page..][..512]);
    made.set_entry(64 * held + 40, FROZEN);
    made.set_entry(64 * replaced + 20, FROZEN);
    put_number(&mut made.state, LAST_AT, 64 * next + 9);
    put_number(&mut made.state, RESERVE_AT, 64 * reserve + 30);
    set_newest(&mut made.state, PART, 64 * replaced + 20);
    set_records(&mut made.state, &some_records(pending));
    made
}

fn load(stores: &mut Stores, made: &Snapshot) {
    stores.load(&made.state, &made.memory, &made.disk);
}

/// A put that is accepted: the tally counts its write, its unfreeze and its log block, each in its group.
fn counted(stores: &mut Stores, tally: &mut Tally, put: &Put) -> Result<(), String> {
    let before = stores.now();
    let block = stores.put(put)?.map_err(|refusal| format!("leaving: a put was refused: {refusal:?}"))?;
    tally.update(block / 64);
    if let Some(replaced) = before.newest(put.part) {
        tally.update(replaced / 64);
    }
    if before.pending() == MOST_PENDING {
        tally.update(before.reserve() / 64);
    }
    tally.holds(&stores.pair)
}

/// Each command of a put, and the one of a flush, in the held group or in the other.
fn inside(stores: &mut Stores, updates: u8, way: u32) -> Result<(), String> {
    let bit = |place: u32| way >> place & 1;
    let (held, groups, pending) = (bit(0), [bit(1), bit(2), bit(3)], [0, MOST_PENDING][bit(4) as usize]);
    let made = holding(held, updates, groups, pending);
    let start = Tally::new(held, updates as u32);
    load(stores, &made);
    let mut tally = start;
    counted(stores, &mut tally, &Put::new(PART + bit(5), NOW))?;
    counted(stores, &mut tally, &Put::new(PART, NOW))?;
    if pending == 0 {
        return Ok(());
    }
    load(stores, &made);
    let mut tally = start;
    stores.expect_flush(NOW, Told::default(), 0)?;
    tally.update(groups[2]);
    tally.holds(&stores.pair)
}

/// A put of which a later command is refused, with the page leaving at an earlier one: nothing changes.
fn refused(stores: &mut Stores) -> Result<(), String> {
    for updates in [61, 62, 63] {
        let mut lapsed = holding(0, updates, [0; 3], MOST_PENDING);
        lapsed.set_entry(20, (NOW, 2001));
        let mut taken = holding(0, updates, [0; 3], MOST_PENDING);
        taken.set_entry(30, FROZEN);
        for made in [lapsed, taken] {
            load(stores, &made);
            stores.expect_put(&Put::new(PART, NOW), Err(9))?;
        }
        for left in 0..3 {
            let mut made = holding(0, updates, [0; 3], MOST_PENDING);
            set_count(&mut made.memory, 0, SPENT - left);
            load(stores, &made);
            stores.expect_put(&Put::new(PART, NOW), Err(8))?;
        }
    }
    Ok(())
}

/// Two hundred puts without a sync, then a restart: what has left is kept, and the store goes on or is refused, in both alike.
fn long(stores: &mut Stores, groups: usize, lock: u32) -> Result<(), String> {
    let mut tally = Tally::default();
    stores.load_started(groups, lock)?;
    for turn in 0..200 {
        counted(stores, &mut tally, &Put::new(turn % 4, 1000 + 2 * turn))?;
        let block = stores.block(turn % 4, None)?.map_err(|number| format!("leaving: a part's block got {number}"))?;
        stores.expect_command(1, block, 1000 + 2 * turn, 0)?;
    }
    stores.expect_command(8, 0, 1400, 0)?;
    for turn in 0..70 {
        stores.put(&Put::new(turn % 4, 1400 + 2 * turn)).map(|_| ())?;
    }
    stores.expect_command(7, 0, 2000, 0)
}

/// A byte of the memory with a page held and with none: a put and a flush get 1 where it is not valid, and before 4, so that it is they
/// who ask and not their first command. A flush without records and the look for a block do not ask.
fn validity(stores: &mut Stores, at: usize, byte: u8) -> Result<(), String> {
    for held in [true, false] {
        let mut made = holding(0, 7, [0; 3], 5);
        if !held {
            made.memory[PRESENT.held..PRESENT.zero].copy_from_slice(&[255, 0]);
            made.memory[PRESENT.page..].fill(0);
            made.set_entry(20, FROZEN);
        }
        made.memory[at] = byte;
        let valid = if at == PRESENT.updates && held { (1..=63).contains(&byte) } else { byte == 0 };
        load(stores, &made);
        stores.expect_block(PART, Ok(20))?;
        let number = if valid { 4 } else { 1 };
        stores.expect_put(&Put::new(PART, LAST_TIME - 1), Err(number))?;
        stores.expect_flush(LAST_TIME - 1, Told::default(), number)?;
        stores.expect_flush(NOW, Told::default(), if valid { 0 } else { 1 })?;
        load(stores, &made);
        stores.expect_put(&Put::new(PART, NOW), if valid { Ok(10) } else { Err(1) })?;
        set_records(&mut made.state, &[]);
        load(stores, &made);
        stores.expect_flush(NOW, Told::default(), 0)?;
    }
    Ok(())
}
