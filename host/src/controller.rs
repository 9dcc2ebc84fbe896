//! The controller, written from document 01 and apart from the Rattle code. It works on the slices
//! that it is lent. The questions see them only to read, so a refusal cannot change a byte. In
//! `states` is the list of document 02's request Q-1, in `entry` the expiry of Q-2, in `change` and
//! `memory` the page that leaves by itself, of Q-4, and in `migration` the way from an old box to a
//! present one, of Q-7. All else is for either box: how many counts it has is a parameter.
mod entry;
mod free;
mod memory;
mod migration;
mod states;
mod tag;
#[cfg(test)]
mod tests;

use entry::{Entry, Update};
pub use free::{ask_call, is_free, Blocks};
use memory::{Page, LAST_COUNT, LATEST, MOST_UPDATES, PAGE_SIZE};
pub use memory::{Memory, OLD, PRESENT};
pub use migration::migrate;
pub use states::states;
use std::ops::Range;
use tag::{tag, TAG_SIZE};
pub use tag::{Digest, Message, OwnDigest};

pub const READ: u32 = 1;
pub const ENTRY: u32 = 2;
pub const PAGE: u32 = 3;
pub const WRITE: u32 = 4;
pub const UNFREEZE: u32 = 5;
pub const INCREMENT: u32 = 6;
pub const SYNC: u32 = 7;
pub const RESTART: u32 = 8;
pub const NEW_SALT: u32 = 9;
pub const IDENTIFY: u32 = 10;

const BLOCK_SIZE: usize = 512;
const GROUP_DATA: u32 = 64;
const GROUP_SIZE: usize = 65 * BLOCK_SIZE;
const SALT_SIZE: usize = 32;
const PROOF_SIZE: usize = PAGE_SIZE + TAG_SIZE;

pub struct Command<'a> {
    pub kind: u32,
    pub block: u32,
    pub now: u32,
    pub value: u32,
    pub data: &'a [u8],
    pub proof: &'a [u8],
}

impl Command<'_> {
    #[inline]
    fn group(&self) -> usize {
        (self.block / GROUP_DATA) as usize
    }

    /// The block's place in its group.
    #[inline]
    fn index(&self) -> usize {
        (self.block % GROUP_DATA) as usize
    }

    /// Where the block begins on the disk.
    #[inline]
    fn place(&self) -> usize {
        GROUP_SIZE * self.group() + BLOCK_SIZE * self.index()
    }

    /// The page that the proof brings.
    #[inline]
    fn page(&self) -> &Page {
        self.proof[..PAGE_SIZE].try_into().unwrap()
    }
}

/// Fills the memory and the disk's pages: 0, or the number of the question that said no.
pub fn format<const COUNTS: usize>(memory: &mut [u8], disk: &mut [u8], groups: u32, salt: &[u8]) -> u32 {
    let Some(memory) = Memory::<COUNTS>::of_mut(memory) else {
        return 1;
    };
    if !Memory::<COUNTS>::groups_in_range(groups) {
        return 1;
    }
    if disk.len() != groups as usize * GROUP_SIZE {
        return 2;
    }
    let Ok(salt) = salt.try_into() else {
        return 6;
    };
    *memory = Memory::formatted(groups as u8, salt);
    for group in disk.chunks_exact_mut(GROUP_SIZE) {
        for entry in group[GROUP_SIZE - PAGE_SIZE..].chunks_exact_mut(8) {
            entry.copy_from_slice(&Entry::blank().bytes());
        }
    }
    0
}

/// One command: 0, or the number of the first question that said no.
pub fn command<const COUNTS: usize, D: Digest>(
    memory: &mut [u8],
    disk: &mut [u8],
    command: &Command,
    answer: &mut [u8],
) -> u32 {
    match questions::<COUNTS, D>(memory, disk, command, answer.len()) {
        Err(number) => number,
        Ok(entry) => {
            let memory = Memory::<COUNTS>::of_mut(memory).unwrap();
            memory.set_last_time(command.now);
            perform::<COUNTS, D>(memory, disk, command, entry, answer.try_into().unwrap());
            0
        }
    }
}

#[inline]
fn ask(yes: bool, number: u32) -> Result<(), u32> {
    if yes { Ok(()) } else { Err(number) }
}

/// Questions 1 and 2, which are about the box. Inlined, as the benchmark compiles `command` in a crate of its own.
#[inline]
fn ask_box<'a, const COUNTS: usize>(memory: &'a [u8], disk: &[u8]) -> Result<&'a Memory<COUNTS>, u32> {
    let memory = Memory::of(memory).ok_or(1u32)?;
    ask(memory.valid(), 1)?;
    ask(disk.len() == memory.groups() * GROUP_SIZE, 2)?;
    Ok(memory)
}

/// Question 4.
#[inline]
fn ask_time<const COUNTS: usize>(memory: &Memory<COUNTS>, now: u32) -> Result<(), u32> {
    ask(memory.last_time() <= now && now <= LATEST, 4)
}

/// The questions in order; for an update that passes, the entry that it stores.
fn questions<const COUNTS: usize, D: Digest>(
    memory: &[u8],
    disk: &[u8],
    c: &Command,
    answer_len: usize,
) -> Result<Option<Entry>, u32> {
    let memory = ask_box::<COUNTS>(memory, disk)?;
    let groups = memory.groups();
    ask((READ..=IDENTIFY).contains(&c.kind), 3)?;
    ask_time(memory, c.now)?;
    let named = match c.kind {
        READ | ENTRY | WRITE | UNFREEZE | INCREMENT => c.block < GROUP_DATA * groups as u32,
        PAGE => c.block < groups as u32,
        _ => true,
    };
    ask(named, 5)?;
    let (data_len, proof_len) = match c.kind {
        WRITE => (BLOCK_SIZE, PROOF_SIZE),
        UNFREEZE | INCREMENT => (0, PROOF_SIZE),
        NEW_SALT => (SALT_SIZE, 0),
        _ => (0, 0),
    };
    ask(c.data.len() == data_len && c.proof.len() == proof_len && answer_len == PROOF_SIZE, 6)?;
    let update = match c.kind {
        WRITE => Update::Write(c.value),
        UNFREEZE => Update::Unfreeze,
        INCREMENT => Update::Increment(c.value),
        NEW_SALT => return ask(c.data != memory.salt(), 11).map(|()| None),
        _ => return Ok(None),
    };
    ask(c.proof[PAGE_SIZE..] == tag::<COUNTS, D>(memory, c.group(), c.page()), 7)?;
    ask(memory.count(c.group()) < LAST_COUNT, 8)?;
    Entry::read(c.page(), c.index()).updated(update, c.now).map(Some)
}

/// What an accepted command does; `entry` is what an update stores.
fn perform<const COUNTS: usize, D: Digest>(
    memory: &mut Memory<COUNTS>,
    disk: &mut [u8],
    c: &Command,
    entry: Option<Entry>,
    answer: &mut [u8; PROOF_SIZE],
) {
    if let Some(entry) = entry {
        return change::<COUNTS, D>(memory, disk, c, entry, answer);
    }
    match c.kind {
        READ => name(answer, &disk[c.place()..][..BLOCK_SIZE]),
        ENTRY => show_entry(current_page(memory, disk, c.group()), c, answer),
        PAGE => show_page::<COUNTS, D>(memory, disk, c.block as usize, answer),
        SYNC => sync(memory, disk, answer),
        RESTART => restart(memory, answer),
        NEW_SALT => {
            sync(memory, disk, answer);
            memory.set_salt(c.data);
            memory.clear_counts();
        }
        _ => identify(memory, answer),
    }
}

/// Fills the answer with what is named and then zeros.
#[inline]
fn name(answer: &mut [u8; PROOF_SIZE], named: &[u8]) {
    answer[..named.len()].copy_from_slice(named);
    answer[named.len()..].fill(0);
}

/// Where a group's page lies on the disk.
#[inline]
fn page_place(group: usize) -> Range<usize> {
    let end = GROUP_SIZE * (group + 1);
    end - PAGE_SIZE..end
}

#[inline]
fn current_page<'a, const COUNTS: usize>(memory: &'a Memory<COUNTS>, disk: &'a [u8], group: usize) -> &'a Page {
    if memory.held() == Some(group) {
        return memory.held_page();
    }
    (&disk[page_place(group)]).try_into().unwrap()
}

#[inline]
fn show_entry(page: &Page, c: &Command, answer: &mut [u8; PROOF_SIZE]) {
    let entry = Entry::read(page, c.index());
    answer[..8].copy_from_slice(&entry.bytes());
    answer[8..16].copy_from_slice(&entry.time_left(c.now).to_le_bytes());
    answer[16] = entry.state(c.now) as u8;
    answer[17..].fill(0);
}

fn show_page<const COUNTS: usize, D: Digest>(
    memory: &Memory<COUNTS>,
    disk: &[u8],
    group: usize,
    answer: &mut [u8; PROOF_SIZE],
) {
    let page = current_page(memory, disk, group);
    answer[..PAGE_SIZE].copy_from_slice(page);
    answer[PAGE_SIZE..].copy_from_slice(&tag::<COUNTS, D>(memory, group, page));
}

/// An update: the held page of another group goes to the disk, a write's data are stored, and the
/// changed page is held and answered. With its 64th update it leaves at once, as by a sync.
fn change<const COUNTS: usize, D: Digest>(
    memory: &mut Memory<COUNTS>,
    disk: &mut [u8],
    c: &Command,
    entry: Entry,
    answer: &mut [u8; PROOF_SIZE],
) {
    let group = c.group();
    if let Some(other) = memory.held().filter(|held| *held != group) {
        disk[page_place(other)].copy_from_slice(memory.held_page());
    }
    if c.kind == WRITE {
        disk[c.place()..][..BLOCK_SIZE].copy_from_slice(c.data);
    }
    let page = memory.hold(group);
    page.copy_from_slice(c.page());
    entry.store(page, c.index());
    memory.raise_count(group);
    answer[..PAGE_SIZE].copy_from_slice(memory.held_page());
    answer[PAGE_SIZE..].copy_from_slice(&tag::<COUNTS, D>(memory, group, memory.held_page()));
    if memory.updates() > MOST_UPDATES {
        put_held(memory, disk);
    }
}

/// The held page, if any, goes to the disk and is held no more.
fn put_held<const COUNTS: usize>(memory: &mut Memory<COUNTS>, disk: &mut [u8]) {
    if let Some(group) = memory.held() {
        disk[page_place(group)].copy_from_slice(memory.held_page());
        memory.drop_held();
    }
}

fn sync<const COUNTS: usize>(memory: &mut Memory<COUNTS>, disk: &mut [u8], answer: &mut [u8; PROOF_SIZE]) {
    put_held(memory, disk);
    answer.fill(0);
}

fn restart<const COUNTS: usize>(memory: &mut Memory<COUNTS>, answer: &mut [u8; PROOF_SIZE]) {
    if let Some(group) = memory.held() {
        memory.raise_count(group);
        memory.drop_held();
    }
    answer.fill(0);
}

fn identify<const COUNTS: usize>(memory: &Memory<COUNTS>, answer: &mut [u8; PROOF_SIZE]) {
    let groups = memory.groups() as u32;
    answer[..4].copy_from_slice(&groups.to_le_bytes());
    answer[4..8].copy_from_slice(&(GROUP_DATA * groups).to_le_bytes());
    answer[8..].fill(0);
}
