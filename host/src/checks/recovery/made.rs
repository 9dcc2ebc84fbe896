//! Boxes with logs that no store has left.
use super::super::call::put_number;
use super::super::places::{self, Places, PRESENT};
use super::super::versions::snapshot::Snapshot;
use super::super::versions::{box_with, set_count, BLANK, BLOCK, NOW};
use super::TIME;

/// Word and stamp.
pub type Entry = (u32, u32);

pub fn frozen(time: u32) -> Entry {
    (700, 2 * time)
}

/// Counting at NOW, in its last second.
pub fn counting(time: u32) -> Entry {
    (NOW + 1, 2 * time + 1)
}

/// Free at NOW, and not a second before.
pub fn lapsed(time: u32) -> Entry {
    (NOW, 2 * time + 1)
}

/// A log block; the records that are not given are FF.
pub fn log_block(records: &[(u32, u32)], pointer: u64) -> [u8; BLOCK] {
    let mut block = [0xFF; BLOCK];
    for (place, (part, named)) in records.iter().enumerate() {
        put_number(&mut block, 8 * place, *part);
        put_number(&mut block, 8 * place + 4, *named);
    }
    block[504..].copy_from_slice(&pointer.to_le_bytes());
    block
}

impl Snapshot {
    /// A box whose blocks are all free, none held, and no store.
    pub fn empty(groups: usize) -> Snapshot {
        Snapshot::empty_with(&PRESENT, groups)
    }

    /// The same with a memory that has these places.
    pub fn empty_with(at: &Places, groups: usize) -> Snapshot {
        let (memory, disk) = box_with(at, groups, BLANK);
        Snapshot { state: Vec::new(), memory, disk }
    }

    /// A log block, frozen since TIME.
    pub fn log(&mut self, block: u32, records: &[(u32, u32)], pointer: u64) {
        self.set_entry(block, frozen(TIME));
        self.set_content(block, &log_block(records, pointer));
    }

    pub fn set_content(&mut self, block: u32, content: &[u8; BLOCK]) {
        let place = BLOCK * (block + block / 64) as usize;
        self.disk[place..place + BLOCK].copy_from_slice(content);
    }

    /// The group's page, which is on the disk, is held too. From here on entries are set on the held one.
    pub fn hold(&mut self, group: usize) {
        set_count(&mut self.memory, group, 1);
        let at = places::of(&self.memory);
        self.memory[at.held..at.zero].copy_from_slice(&[group as u8, 1]);
        self.memory[at.page..].copy_from_slice(&self.disk[BLOCK * (65 * group + 64)..][..BLOCK]);
    }
}
