//! Wrong lengths of each buffer, and a flush without records, which looks at the state alone.
use super::super::Checked;
use super::stores::{Put, Stores, Told};
use super::{box_of, set_records, some_records, started, BLANK, NOW};

/// A box of two groups with a store that has so many records, and buffers of other lengths.
fn load(stores: &mut Stores, pending: usize, state_len: usize, memory_len: usize, disk_len: usize) {
    let (mut memory, mut disk) = box_of(2, BLANK);
    let mut state = started(500);
    set_records(&mut state, &some_records(pending));
    state.resize(state_len, 0xFF);
    memory.resize(memory_len, 0);
    disk.resize(disk_len, 0);
    stores.load(&state, &memory, &disk);
}

fn around(right: usize) -> Vec<usize> {
    let mut list = vec![0, 1, 16, 511, 512, 513, 616, 808, 1040, 1536, 33_280, 3 * 33_280];
    list.extend([right - 1, right, right + 1, right + 8, right + 512]);
    list
}

pub fn check(stores: &mut Stores) -> Checked {
    let before = stores.pair.index;
    for pending in [0, 1, 61, 62] {
        for len in around(1536) {
            state(stores, pending, len)?;
        }
        for len in around(808) {
            one(stores, pending, [1536, len, 66_560], if len == 808 { 0 } else { 1 })?;
        }
        for len in around(66_560) {
            one(stores, pending, [1536, 808, len], if len == 66_560 { 0 } else { 2 })?;
        }
        for len in around(512) {
            load(stores, pending, 1536, 808, 66_560);
            let mut put = Put::new(9, NOW);
            put.content.resize(len, 7);
            stores.expect_put(&put, if len == 512 { Ok(1) } else { Err(6) })?;
        }
    }
    told(stores)?;
    Ok(format!("lengths of versions: {} calls", stores.pair.index - before))
}

fn state(stores: &mut Stores, pending: usize, len: usize) -> Result<(), String> {
    let number = if len == 1536 { 0 } else { 1 };
    one(stores, pending, [len, 808, 66_560], number)?;
    load(stores, pending, len, 808, 66_560);
    stores.expect_block(3, if number == 0 { Ok(u32::MAX) } else { Err(1) })?;
    stores.expect_start(5, None, number)
}

/// A put, and a flush, to buffers of these lengths.
fn one(stores: &mut Stores, pending: usize, [state, memory, disk]: [usize; 3], number: u32) -> Result<(), String> {
    load(stores, pending, state, memory, disk);
    stores.expect_put(&Put::new(9, NOW), if number == 0 { Ok(1) } else { Err(number) })?;
    load(stores, pending, state, memory, disk);
    let asks = pending > 0 || state != 1536;
    stores.expect_flush(NOW, Told::default(), if asks { number } else { 0 })
}

/// Buffers that are right, and told to be a little shorter or longer.
fn told(stores: &mut Stores) -> Result<(), String> {
    for pending in [0, 3, 62] {
        for (told, number) in [
            (Told { state: Some(1535), ..Told::default() }, 1),
            (Told { state: Some(1537), ..Told::default() }, 1),
            (Told { memory: Some(807), ..Told::default() }, 1),
            (Told { memory: Some(809), ..Told::default() }, 1),
            (Told { disk: Some(66_559), ..Told::default() }, 2),
            (Told { disk: Some(66_561), ..Told::default() }, 2),
        ] {
            load(stores, pending, 1536, 808, 66_560);
            stores.expect_put(&Put { told, ..Put::new(9, NOW) }, Err(number))?;
            let asks = pending > 0 || told.state.is_some();
            stores.expect_flush(NOW, told, if asks { number } else { 0 })?;
        }
    }
    Ok(())
}
