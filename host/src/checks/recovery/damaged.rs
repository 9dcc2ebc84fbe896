//! Random boxes that no store has left: log blocks, pointers and pages of any kind, with or without a page held, walked as of times
//! about those of their entries.
use super::super::call::{put_number, LATEST};
use super::super::model::Model;
use super::super::places::{last_time, of, COUNTS};
use super::super::room::GUARD;
use super::super::versions::snapshot::Snapshot;
use super::super::versions::set_entry;
use super::made::{log_block, Entry};
use super::walks::{Walk, Walks};
use super::RESULT;
use crate::random::Random;

/// The walks of one box.
pub const WALKS: usize = 12;
/// Times of write are near this one, in nearly all boxes.
const ABOUT: u32 = 4000;

/// Walks of a new box; some of them are refused.
pub fn run(walks: &mut Walks, random: &mut Random) -> Result<(), String> {
    let made = Damage { random, model: walks.stores.pair.model }.made();
    walks.load(&made);
    for _ in 0..WALKS {
        let walk = any_walk(&made, random);
        walks.traced(&walk)?;
    }
    Ok(())
}

/// A walk at a time at which entries lapse, in one case of eight spoiled.
fn any_walk(made: &Snapshot, random: &mut Random) -> Walk {
    let (last, size) = (last_time(&made.memory), made.memory.len());
    let point = [near(random), near(random), near(random), LATEST, u32::MAX, 0][random.below(6)];
    let mut walk = Walk::new(point, last.saturating_add(random.below(12) as u32).min(LATEST));
    match random.below(40) {
        0 => walk.result_len = [0, RESULT - 1, RESULT + 1, random.below(3000)][random.below(4)],
        1 => walk.memory_len = Some([0, size - 1, size + 1, random.below(size + GUARD)][random.below(4)]),
        2 => walk.disk_len = Some([0, 33_279, made.disk.len() - 1, made.disk.len() + 1][random.below(4)]),
        3 => walk.now = [last.wrapping_sub(1), 0, LATEST + 1, u32::MAX][random.below(4)],
        4 => (walk.result_len, walk.now) = (RESULT - 1, LATEST + 1),
        _ => {}
    }
    walk
}

fn near(random: &mut Random) -> u32 {
    ABOUT + random.below(8) as u32
}

struct Damage<'a> {
    random: &'a mut Random,
    model: Model,
}

impl Damage<'_> {
    fn made(&mut self) -> Snapshot {
        let most = if self.random.below(6) == 0 { self.model.most_groups } else { 16 };
        let groups = [1, 1, 2, 2, 3, 1 + self.random.below(most)][self.random.below(6)];
        let mut made = Snapshot::empty_with(self.model.places, groups);
        let last = [ABOUT, ABOUT, ABOUT + 4, 0, LATEST - self.random.below(20) as u32][self.random.below(5)];
        put_number(&mut made.memory, self.model.places.last_time, last);
        (0..made.blocks()).for_each(|block| made.set_entry(block, self.entry(last)));
        self.chain(&mut made, last);
        if self.random.below(2) == 0 {
            self.hold(&mut made, last);
        }
        // An old box's memory is to be valid.
        if self.random.below(20) == 0 && !self.model.is_old() {
            let end = of(&made.memory).page;
            made.memory[COUNTS + self.random.below(end - COUNTS)] ^= 1 << self.random.below(8);
        }
        made
    }

    /// Frozen, counting about the last time, free, or of any bytes.
    fn entry(&mut self, last: u32) -> Entry {
        let (time, expiry) = (near(self.random), last.saturating_add(self.random.below(14) as u32));
        match self.random.below(16) {
            0..=5 => (self.random.below(3) as u32, 2 * time),
            6..=9 => (expiry, 2 * time + 1),
            10 => (u32::MAX, 2 * time + 1),
            11..=13 => (0, 1),
            14 => (0, 2 * time + 1),
            _ => (self.random.next() as u32, self.random.next() as u32),
        }
    }

    /// A log through some blocks of the box in any order, their times mostly rising from one to the next. Each may be damaged.
    fn chain(&mut self, made: &mut Snapshot, last: u32) {
        let blocks = made.blocks();
        let length = [1, 2, 3, 6, 12, 30][self.random.below(6)];
        let (mut block, mut time) = (0, ABOUT);
        for _ in 0..length {
            let next = self.random.below(blocks as usize) as u32;
            let content = log_block(&self.records(blocks), self.pointer(blocks, block, next));
            made.set_content(block, &content);
            let kept = [(9, 2 * time), (last.saturating_add(13), 2 * time + 1)][self.random.below(2)];
            made.set_entry(block, if self.random.below(8) == 0 { self.entry(last) } else { kept });
            time = time + [0, 0, 0, 1, 1, 2][self.random.below(6)] - u32::from(self.random.below(12) == 0);
            block = next;
        }
    }

    fn pointer(&mut self, blocks: u32, own: u32, next: u32) -> u64 {
        match self.random.below(24) {
            0 => own as u64,
            1 => [blocks as u64, blocks as u64 + 1, u64::MAX, 0][self.random.below(4)],
            2 => next as u64 | 1 << (32 + self.random.below(32)),
            3 => self.random.next(),
            _ => next as u64,
        }
    }

    /// Records of a few parts, and of numbers that are none.
    fn records(&mut self, blocks: u32) -> Vec<(u32, u32)> {
        let used = [0, 1, 5, 20, 63, 63][self.random.below(6)];
        (0..used).map(|_| (self.part(), self.named(blocks))).collect()
    }

    fn part(&mut self) -> u32 {
        match self.random.below(20) {
            0 => [255, 256, 257, u32::MAX][self.random.below(4)],
            1 => self.random.below(300) as u32,
            2 => self.random.next() as u32,
            _ => self.random.below(12) as u32,
        }
    }

    fn named(&mut self, blocks: u32) -> u32 {
        match self.random.below(20) {
            0 => [0, blocks - 1, blocks, blocks + 1, u32::MAX][self.random.below(5)],
            1 => self.random.next() as u32,
            _ => self.random.below(blocks as usize) as u32,
        }
    }

    /// A page is held, which differs from the disk's in some entries: either of the two may be the one that fits the log.
    fn hold(&mut self, made: &mut Snapshot, last: u32) {
        let group = self.random.below(made.blocks() as usize / 64);
        made.hold(group);
        let on_disk = self.random.below(2) == 0;
        for place in 0..64 {
            let block = (64 * group + place) as u32;
            match self.random.below(4) {
                0 if on_disk => set_entry(&mut made.disk, block, self.entry(last)),
                0 => made.set_entry(block, self.entry(last)),
                _ => {}
            }
        }
    }
}
