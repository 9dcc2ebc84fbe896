//! The tester's own walk, block by block from Q-6's sentences, which says why it stopped and why records did not count.
use super::super::call::number;
use super::super::versions::snapshot::Snapshot;
use super::super::versions::BLOCK;
use std::collections::{BTreeMap, BTreeSet};

/// What became of a walk: the situations that it met, and the block of each part that has one.
pub struct Trace<'a> {
    now: &'a Snapshot,
    point: u32,
    time: u32,
    walked: BTreeSet<u32>,
    found: BTreeMap<u32, u32>,
    pub notes: Vec<&'static str>,
}

impl Trace<'_> {
    pub fn of(now: &Snapshot, point: u32, time: u32) -> Trace<'_> {
        let mut made = Trace { now, point, time, walked: BTreeSet::new(), found: BTreeMap::new(), notes: Vec::new() };
        let (mut pointer, mut parent) = (0, None);
        while made.may_walk(pointer, parent) {
            let block = pointer as u32;
            made.walked.insert(block);
            let log = &now.disk[BLOCK * (block + block / 64) as usize..][..BLOCK];
            (0..63).for_each(|place| made.record(place, number(log, 8 * place), number(log, 8 * place + 4)));
            pointer = number(log, 504) as u64 | (number(log, 508) as u64) << 32;
            parent = Some(block);
        }
        made.note_length();
        made
    }

    pub fn found(&self) -> Vec<(u32, u32)> {
        self.found.iter().map(|(part, block)| (*part, *block)).collect()
    }

    fn note(&mut self, name: &'static str, here: bool) {
        if here {
            self.notes.push(name);
        }
    }

    fn written(&self, block: u32) -> u32 {
        self.now.entry(block).1 / 2
    }

    /// Whether the disk's page tells another state or time of write of a block than the held one.
    fn held_differs(&self, block: u32) -> bool {
        let place = BLOCK * (65 * (block as usize / 64) + 64) + 8 * (block as usize % 64);
        let [word, stamp] = [0, 4].map(|at| number(&self.now.disk, place + at));
        let free = stamp % 2 == 1 && word <= self.time;
        (free, stamp / 2) != (self.now.free(block, self.time), self.written(block))
    }

    /// Whether the walk goes on with the block that a pointer names; if not, the reason is noted.
    fn may_walk(&mut self, pointer: u64, parent: Option<u32>) -> bool {
        if pointer >= self.now.blocks() as u64 {
            self.note("a pointer to the end of the box", pointer == self.now.blocks() as u64);
            self.note("a pointer whose low half is in range", (pointer as u32) < self.now.blocks());
            self.note("stopped out of range", true);
            return false;
        }
        let block = pointer as u32;
        let (written, blank) = (self.written(block), self.now.entry(block) == (0, 1));
        let older = parent.is_some_and(|parent| written < self.written(parent));
        let reasons = [
            ("stopped at a block never written", self.now.free(block, self.time) && blank),
            ("stopped at a lapsed block", self.now.free(block, self.time) && !blank),
            ("stopped at a block written after X", written > self.point),
            ("stopped at a block written before its parent", older),
            ("stopped at a block walked already", self.walked.contains(&block)),
        ];
        let mut stopped = reasons.into_iter().filter(|(_, here)| *here);
        if let (Some((name, _)), None) = (stopped.next(), stopped.next()) {
            self.note(name, true);
            self.note("stopped by a pointer to itself", parent == Some(block));
            self.note("stopped a second after X", written == self.point.wrapping_add(1));
            self.note("stopped a second before the parent", older && parent.is_some_and(|parent| written + 1 == self.written(parent)));
        }
        if reasons.iter().any(|(_, here)| *here) {
            self.note("stopped at block 0", parent.is_none());
            self.note("stopped by the held page, not by the disk's", self.held_differs(block));
            return false;
        }
        self.note("a log block written at X", written == self.point);
        self.note("a log block as old as its parent", parent.is_some_and(|parent| written == self.written(parent)));
        self.note("a log block that counts down", !self.now.frozen(block));
        self.note("a log block by the held page, not by the disk's", self.held_differs(block));
        true
    }

    fn record(&mut self, place: usize, part: u32, block: u32) {
        let inside = part <= 255 && block < self.now.blocks();
        self.note("a record of part 256", part == 256);
        self.note("a record of a part above 255", part > 255 && part != u32::MAX);
        self.note("a record of a block out of range", part <= 255 && block >= self.now.blocks());
        if !inside {
            return;
        }
        let (written, free) = (self.written(block), self.now.free(block, self.time));
        let before = self.found.get(&part).copied();
        self.note("a record of a free block", free && written <= self.point);
        self.note("a record of a block written after X", !free && written > self.point);
        if free || written > self.point {
            self.note("a later record that does not count", before.is_some());
            return;
        }
        self.note("a record of a block written at X", written == self.point);
        self.note("a record of a block that counts down", !self.now.frozen(block));
        self.note("a record of a log block", self.walked.contains(&block));
        self.note("a record by the held page, not by the disk's", self.held_differs(block));
        self.note("a record at the last place", place == 62);
        self.note("a record that supersedes another", before.is_some_and(|before| before != block));
        self.note("a record that supersedes one of a newer block", before.is_some_and(|before| self.written(before) > written));
        self.found.insert(part, block);
    }

    fn note_length(&mut self) {
        let length = self.walked.len();
        self.note("a walk of one block", length == 1);
        self.note("a walk of two to nine blocks", (2..10).contains(&length));
        self.note("a walk of ten blocks or more", length >= 10);
        self.note("a walk over two groups", self.walked.iter().any(|block| *block >= 64));
        self.note("no part found", length > 0 && self.found.is_empty());
    }
}
