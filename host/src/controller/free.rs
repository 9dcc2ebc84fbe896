//! What a library above the controller reads of a box without a command.
use super::entry::{Entry, State};
use super::memory::{Memory, Page};
use super::{ask_box, ask_time, current_page, BLOCK_SIZE, GROUP_DATA, GROUP_SIZE};

/// Questions 1, 2 and 4; where all have yes, the number of data blocks.
#[inline]
pub fn ask_call<const COUNTS: usize>(memory: &[u8], disk: &[u8], now: u32) -> Result<u32, u32> {
    let memory = ask_box::<COUNTS>(memory, disk)?;
    ask_time(memory, now)?;
    Ok(GROUP_DATA * memory.groups() as u32)
}

/// Whether a data block of the box is free, by its group's current page.
#[inline]
pub fn is_free<const COUNTS: usize>(memory: &[u8], disk: &[u8], block: u32, now: u32) -> bool {
    let memory = Memory::<COUNTS>::of(memory).expect("a memory that question 1 passed");
    let page = current_page(memory, disk, (block / GROUP_DATA) as usize);
    Entry::read(page, (block % GROUP_DATA) as usize).state(now) == State::Free
}

/// The data blocks of a box at a time that questions 1, 2 and 4 let pass.
pub struct Blocks<'a, const COUNTS: usize> {
    disk: &'a [u8],
    now: u32,
    end: u32,
    /// Each group's current page; behind the last group they are the first one's.
    pages: [&'a Page; COUNTS],
}

impl<'a, const COUNTS: usize> Blocks<'a, COUNTS> {
    /// Asks these questions.
    #[inline]
    pub fn ask(memory: &'a [u8], disk: &'a [u8], now: u32) -> Result<Self, u32> {
        let end = ask_call::<COUNTS>(memory, disk, now)?;
        let memory = Memory::<COUNTS>::of(memory).expect("a memory that question 1 passed");
        let mut pages = [current_page(memory, disk, 0); COUNTS];
        for (group, page) in pages.iter_mut().enumerate().take(memory.groups()) {
            *page = current_page(memory, disk, group);
        }
        Ok(Blocks { disk, now, end, pages })
    }

    /// The time of write of a block that the box has and that is not free.
    #[inline]
    pub fn written(&self, block: u32) -> Option<u32> {
        if block >= self.end {
            return None;
        }
        let page = self.pages[(block / GROUP_DATA) as usize % COUNTS];
        let entry = Entry::read(page, (block % GROUP_DATA) as usize);
        (entry.state(self.now) != State::Free).then(|| entry.time_of_write())
    }

    /// What a block of the box has on the disk.
    #[inline]
    pub fn content(&self, block: u32) -> &'a [u8; BLOCK_SIZE] {
        let place = GROUP_SIZE * (block / GROUP_DATA) as usize + BLOCK_SIZE * (block % GROUP_DATA) as usize;
        self.disk[place..][..BLOCK_SIZE].try_into().unwrap()
    }
}
