//! State, memory and disk at one moment, and what a tester reads off them. The places are written out from the papers and
//! not taken from the model.
use super::super::call::{number, page, put_number};
use super::super::places;
use super::{LAST_AT, LOCK_AT, NEWEST_AT, NONE, PENDING_AT, RESERVE_AT};

#[derive(Clone)]
pub struct Snapshot {
    pub state: Vec<u8>,
    pub memory: Vec<u8>,
    pub disk: Vec<u8>,
}

impl Snapshot {
    pub fn blocks(&self) -> u32 {
        64 * places::groups(&self.memory) as u32
    }

    pub fn last_time(&self) -> u32 {
        places::last_time(&self.memory)
    }

    pub fn held(&self) -> u32 {
        places::held(&self.memory) as u32
    }

    /// The updates to the held page.
    pub fn updates(&self) -> u32 {
        places::updates(&self.memory) as u32
    }

    /// A held page has had so many updates.
    pub fn set_updates(&mut self, updates: u8) {
        let at = places::of(&self.memory).updates;
        self.memory[at] = updates;
    }

    pub fn lock(&self) -> u32 {
        number(&self.state, LOCK_AT)
    }

    pub fn reserve(&self) -> u32 {
        number(&self.state, RESERVE_AT)
    }

    pub fn last_taken(&self) -> u32 {
        number(&self.state, LAST_AT)
    }

    pub fn pending(&self) -> usize {
        number(&self.state, PENDING_AT) as usize
    }

    pub fn newest(&self, part: u32) -> Option<u32> {
        Some(number(&self.state, NEWEST_AT + 4 * part as usize)).filter(|block| *block != NONE)
    }

    /// Word and stamp of a block of the box.
    pub fn entry(&self, block: u32) -> (u32, u32) {
        let page = page(&self.memory, &self.disk, block as usize / 64);
        (number(page, 8 * (block as usize % 64)), number(page, 8 * (block as usize % 64) + 4))
    }

    /// Another entry for a block of the box, on its group's current page.
    pub fn set_entry(&mut self, block: u32, (word, stamp): (u32, u32)) {
        let (group, place) = (block as usize / 64, 8 * (block as usize % 64));
        let held_at = places::of(&self.memory).page;
        let page = if self.held() == group as u32 { &mut self.memory[held_at..] } else { &mut self.disk[512 * (65 * group + 64)..] };
        put_number(page, place, word);
        put_number(page, place + 4, stamp);
    }

    pub fn frozen(&self, block: u32) -> bool {
        block < self.blocks() && self.entry(block).1.is_multiple_of(2)
    }

    pub fn free(&self, block: u32, now: u32) -> bool {
        block < self.blocks() && !self.frozen(block) && self.entry(block).0 <= now
    }

    /// How many blocks are free besides the reserve, counted up to three.
    pub fn spare(&self, now: u32) -> usize {
        let reserve = self.reserve();
        (0..self.blocks()).filter(|block| *block != reserve && self.free(*block, now)).take(3).count()
    }
}
