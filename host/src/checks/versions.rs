//! The comparison of the version store, document 02's request Q-3. Its checks are run by `bin/versions.rs`.
pub mod fields;
pub mod hand;
pub mod hostile;
pub mod leaving;
pub mod lengths;
pub mod logs;
mod office;
pub mod order;
pub mod runs;
pub mod search;
pub mod seen;
mod situations;
pub mod snapshot;
pub mod stack;
pub mod stores;

use super::call::{even_page, put_number, GROUP};
use super::places::{Places, COUNTS, PRESENT};

pub const STATE: usize = 1536;
pub const BLOCK: usize = 512;
pub const NONE: u32 = u32::MAX;
/// Records that can wait between two calls.
pub const MOST_PENDING: usize = 62;
/// The places of the state's fields.
pub const LOCK_AT: usize = 0;
pub const RESERVE_AT: usize = 4;
pub const LAST_AT: usize = 8;
pub const PENDING_AT: usize = 12;
pub const NEWEST_AT: usize = 16;
pub const RECORDS_AT: usize = 1040;

pub const LAST_TIME: u32 = 1000;
pub const NOW: u32 = 5000;
/// Entries: never written, counting at NOW, frozen.
pub const BLANK: (u32, u32) = (0, 1);
pub const COUNTING: (u32, u32) = (NOW + 1, 2 * LAST_TIME + 1);
pub const LAPSED: (u32, u32) = (NOW, 2 * LAST_TIME + 1);
pub const FROZEN: (u32, u32) = (700, 2 * LAST_TIME);

/// The state of a store with this lock, as a start leaves it.
pub fn started(lock: u32) -> Vec<u8> {
    let mut state = vec![0xFF; STATE];
    state[..16].fill(0);
    put_number(&mut state, LOCK_AT, lock);
    state
}

pub fn set_newest(state: &mut [u8], part: u32, block: u32) {
    put_number(state, NEWEST_AT + 4 * part as usize, block);
}

/// The state has these records, and no others.
pub fn set_records(state: &mut [u8], records: &[(u32, u32)]) {
    state[RECORDS_AT..].fill(0xFF);
    put_number(state, PENDING_AT, records.len() as u32);
    for (place, (part, block)) in records.iter().enumerate() {
        put_number(state, RECORDS_AT + 8 * place, *part);
        put_number(state, RECORDS_AT + 8 * place + 4, *block);
    }
}

/// So many records of parts that come by turns.
pub fn some_records(count: usize) -> Vec<(u32, u32)> {
    (0..count as u32).map(|i| (i * 37 % 256, i * 11 % 64)).collect()
}

/// A box, none held, whose entries are all alike. Its data blocks are of bytes B0.
pub fn box_of(groups: usize, entry: (u32, u32)) -> (Vec<u8>, Vec<u8>) {
    box_with(&PRESENT, groups, entry)
}

/// The same with a memory that has these places.
pub fn box_with(at: &Places, groups: usize, (word, stamp): (u32, u32)) -> (Vec<u8>, Vec<u8>) {
    let mut memory = vec![0; at.size];
    memory[..32].fill(9);
    put_number(&mut memory, at.last_time, LAST_TIME);
    memory[at.groups] = groups as u8;
    memory[at.held] = 255;
    let mut disk = vec![0xB0; GROUP * groups];
    for group in disk.chunks_exact_mut(GROUP) {
        group[GROUP - 512..].copy_from_slice(&even_page(word, stamp));
    }
    (memory, disk)
}

/// Another entry for a block, on the disk.
pub fn set_entry(disk: &mut [u8], block: u32, (word, stamp): (u32, u32)) {
    let place = GROUP * (block as usize / 64) + 64 * 512 + 8 * (block as usize % 64);
    put_number(disk, place, word);
    put_number(disk, place + 4, stamp);
}

pub fn set_count(memory: &mut [u8], group: usize, count: u32) {
    put_number(memory, COUNTS + 4 * group, count);
}
