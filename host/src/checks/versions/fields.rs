//! Each field of the state at its limits and over them: a state that no start and calls can have left gets 1, and a
//! reserve or a last taken block of any number is none of these.
use super::super::call::{put_number, LATEST};
use super::super::Checked;
use super::stores::{Put, Stores, Told};
use super::{
    box_of, set_newest, set_records, some_records, started, BLANK, FROZEN, LAST_AT, NEWEST_AT, NONE, NOW,
    PENDING_AT, RECORDS_AT, RESERVE_AT,
};

const PART: u32 = 9;
/// Numbers about the ends of boxes of 1, 2, 16 and 64 groups, and of 32 bits.
const BLOCKS: [u32; 16] =
    [0, 1, 62, 63, 64, 65, 127, 128, 1023, 1024, 4094, 4095, 4096, 1 << 31, u32::MAX - 1, u32::MAX];
/// A few of them, for the largest box.
const FEW: [u32; 5] = [0, 1024, 4095, 4096, u32::MAX];

pub fn check(stores: &mut Stores) -> Checked {
    let before = stores.pair.index;
    locks(stores)?;
    newest(stores)?;
    (0..=62).try_for_each(|pending| records(stores, pending))?;
    counts(stores)?;
    for (groups, blocks) in [(1, &BLOCKS[..]), (2, &BLOCKS), (16, &BLOCKS), (64, &FEW)] {
        for reserve in blocks {
            blocks.iter().try_for_each(|last| places(stores, groups, *reserve, *last))?;
        }
    }
    Ok(format!("fields of the state: {} calls", stores.pair.index - before))
}

/// A put, a flush and the block of a part: all of them get 1, or none.
fn judged(stores: &mut Stores, state: &[u8], valid: bool) -> Result<(), String> {
    let (memory, disk) = box_of(1, BLANK);
    stores.load(state, &memory, &disk);
    let got = [
        stores.block(PART, None)?.err().unwrap_or(0),
        stores.flush(NOW, Told::default())?.err().map_or(0, |refusal| refusal.number),
    ];
    stores.load(state, &memory, &disk);
    let put = stores.put(&Put::new(PART, NOW))?.err().map_or(0, |refusal| refusal.number);
    let refused = [got[0], got[1], put].map(|number| number == 1);
    if refused == [!valid; 3] {
        return Ok(());
    }
    Err(format!("fields: block, flush and put answered {got:?} and {put}, and the state's validity is {valid}"))
}

fn locks(stores: &mut Stores) -> Result<(), String> {
    for (lock, right) in [(0, 10), (1, 0), (2, 0), (LATEST - 1, 0), (LATEST, 0), (LATEST + 1, 10), (u32::MAX, 10)] {
        let mut state = started(lock);
        judged(stores, &state, right == 0)?;
        set_records(&mut state, &some_records(5));
        judged(stores, &state, right == 0)?;
        stores.expect_start(lock, None, right)?;
        stores.expect_start(lock, Some(1535), 1)?;
        stores.expect_start(lock, Some(1537), 1)?;
    }
    Ok(())
}

/// The newest block of each part at the largest box's end.
fn newest(stores: &mut Stores) -> Result<(), String> {
    for part in 0..256 {
        for (block, valid) in [(1024, true), (4095, true), (4096, false), (NONE - 1, false), (NONE, true), (0x0001_0000, false)] {
            let mut state = started(500);
            set_newest(&mut state, part, block);
            judged(stores, &state, valid)?;
        }
    }
    Ok(())
}

/// So many records: each number of each in turn at its limits, and each byte behind them in turn not FF.
fn records(stores: &mut Stores, pending: usize) -> Result<(), String> {
    let mut right = started(500);
    set_records(&mut right, &some_records(pending));
    judged(stores, &right, true)?;
    for place in [0, pending / 2, pending.saturating_sub(1)].into_iter().filter(|place| *place < pending) {
        for (at, number, valid) in
            [(0, 255, true), (0, 256, false), (0, NONE, false), (4, 4095, true), (4, 4096, false), (4, NONE, false)]
        {
            let mut state = right.clone();
            put_number(&mut state, RECORDS_AT + 8 * place + at, number);
            judged(stores, &state, valid)?;
        }
    }
    let unused = RECORDS_AT + 8 * pending..1536;
    let near = unused.clone().take(9).chain(unused.clone().skip(9).step_by(37)).chain(unused.rev().take(1));
    for byte in near {
        let mut state = right.clone();
        state[byte] ^= 1 << (byte % 8);
        judged(stores, &state, false)?;
    }
    Ok(())
}

/// Numbers of records that do not fit the records, or are too many.
fn counts(stores: &mut Stores) -> Result<(), String> {
    let mut state = started(500);
    for number in [1, 62, 63, 64, 255, 256, 1 << 16, 1 << 24, 1 << 31, u32::MAX] {
        put_number(&mut state, PENDING_AT, number);
        judged(stores, &state, false)?;
    }
    set_records(&mut state, &some_records(62));
    for number in [0, 61, 63, 64, 62 + 256, 62 + (1 << 16), 62 + (1 << 24), u32::MAX] {
        put_number(&mut state, PENDING_AT, number);
        judged(stores, &state, false)?;
    }
    Ok(())
}

/// A reserve and a last taken block of any number: puts with no record and with 62, with a version to replace and
/// without, and a flush. The numbers answered are those of the write to the reserve.
fn places(stores: &mut Stores, groups: usize, reserve: u32, last: u32) -> Result<(), String> {
    let (memory, mut disk) = box_of(groups, BLANK);
    let replaced = 64 * groups as u32 - 3;
    super::set_entry(&mut disk, replaced, FROZEN);
    let outside = reserve >= 64 * groups as u32;
    for pending in [0, 61, 62] {
        let mut state = started(500);
        put_number(&mut state, RESERVE_AT, reserve);
        put_number(&mut state, LAST_AT, last);
        set_records(&mut state, &some_records(pending));
        put_number(&mut state, NEWEST_AT + 4 * PART as usize, replaced);
        for part in [PART, PART + 1] {
            stores.load(&state, &memory, &disk);
            let done = stores.put(&Put::new(part, NOW))?;
            let right = if outside && pending == 62 { 5 } else { 0 };
            if done.map_err(|refusal| refusal.number).err().unwrap_or(0) != right {
                return Err(format!("fields: {done:?} with reserve {reserve}, last taken {last}, {pending} records"));
            }
        }
        stores.load(&state, &memory, &disk);
        stores.expect_flush(NOW, Told::default(), if outside && pending > 0 { 5 } else { 0 })?;
    }
    Ok(())
}
