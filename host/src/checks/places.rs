//! Where a tester finds the fields of a memory: written out from documents 01 and 02, and not taken from the model. The salt and the
//! counts begin at the same places in both boxes.

pub struct Places {
    pub size: usize,
    pub last_time: usize,
    pub groups: usize,
    pub held: usize,
    pub updates: usize,
    pub zero: usize,
    pub page: usize,
}

/// The first count.
pub const COUNTS: usize = 32;
pub const OLD: Places = Places { size: 616, last_time: 96, groups: 100, held: 101, updates: 102, zero: 103, page: 104 };
pub const PRESENT: Places = Places { size: 808, last_time: 288, groups: 292, held: 293, updates: 294, zero: 295, page: 296 };

/// Those of a memory of either box, by its length.
pub fn of(memory: &[u8]) -> &'static Places {
    if memory.len() == OLD.size { &OLD } else { &PRESENT }
}

/// An old box's memory as it is after a migration: 48 more counts, which are 0.
pub fn widened(old: &[u8]) -> Vec<u8> {
    let (front, back) = old.split_at(OLD.last_time);
    [front, &[0; 4 * 48], back].concat()
}

pub fn last_time(memory: &[u8]) -> u32 {
    let at = of(memory).last_time;
    u32::from_le_bytes(memory[at..at + 4].try_into().unwrap())
}

pub fn groups(memory: &[u8]) -> usize {
    memory[of(memory).groups] as usize
}

/// The held group, or 255.
pub fn held(memory: &[u8]) -> usize {
    memory[of(memory).held] as usize
}

/// The updates to the held page.
pub fn updates(memory: &[u8]) -> u8 {
    memory[of(memory).updates]
}
