//! An intruder on a box with a version store's log, after X: any command, timed after X, with pages that are current or old, and the
//! store's own later calls.
use super::super::call::{Call, LATEST, UNKNOWN};
use super::super::lists::List;
use super::super::places::{held, last_time};
use super::super::versions::stores::{Put, Told};
use super::made::log_block;
use super::office::{new_salt, Kept};
use super::walks::Walks;
use crate::random::Random;

/// How often each step comes, of 100: a write of a free block, an unfreeze, an increment, a sync, a restart, a new salt, an old page, a
/// list, a put and a flush of the store, a spoiled command; else a page is fetched and kept.
const WEIGHTS: [usize; 11] = [24, 22, 6, 4, 5, 3, 8, 3, 12, 4, 5];

pub struct Attacker<'a> {
    pub walks: &'a mut Walks,
    pub random: &'a mut Random,
    pub kept: &'a Kept,
    /// Updates with pages that were current once.
    old: Vec<Call>,
    /// The most by which time moves on with a step.
    pace: u32,
}

impl<'a> Attacker<'a> {
    /// One that makes so many steps, mostly before X + R.
    pub fn new(walks: &'a mut Walks, random: &'a mut Random, kept: &'a Kept, steps: u32) -> Attacker<'a> {
        let pace = kept.lock / (steps + 1) + 1;
        Attacker { walks, random, kept, old: Vec::new(), pace }
    }

    pub fn step(&mut self) -> Result<(), String> {
        let now = self.time();
        let group = self.random.below(self.kept.now.blocks() as usize / 64) as u32;
        match self.random.weighted(&WEIGHTS) {
            Some(0) => self.write(now),
            Some(1) => self.change(5, now),
            Some(2) => self.change(6, now),
            Some(3) => self.send(&Call::new(7, 0, now, 0)).map(|_| ()),
            Some(4) => self.restart(now),
            Some(5) => {
                let number = new_salt(self.walks, self.random, now)?;
                self.walks.seen.note_if("a new salt after X", number == 0);
                Ok(())
            }
            Some(6) => self.replay(now),
            Some(7) => {
                self.walks.seen.note("a list after X");
                self.walks.stores.pair.list(&List::new(&[64 * group, 64 * group + 63], now)).map(|_| ())
            }
            Some(8) => self.put(now),
            Some(9) => self.flush(now),
            Some(10) => self.spoiled(now),
            _ => {
                self.old.push(self.walks.stores.pair.good(4, 64 * group, now, 0));
                self.send(&Call::new(3, group, now, 0)).map(|_| ())
            }
        }
    }

    /// After X, and not before the last time.
    fn time(&mut self) -> u32 {
        let last = last_time(self.walks.stores.pair.memory()).max(self.kept.point + 1);
        last.saturating_add(self.random.below(self.pace as usize) as u32).min(LATEST)
    }

    fn send(&mut self, call: &Call) -> Result<u32, String> {
        self.walks.stores.pair.command(call)
    }

    /// A log block, a version, one that was replaced before X, the reserve, or any block.
    fn target(&mut self) -> u32 {
        let Kept { logs, map, counting, now, .. } = self.kept;
        match self.random.below(8) {
            0 | 1 if !logs.is_empty() => logs[self.random.below(logs.len())],
            2 | 3 if !map.is_empty() => map[self.random.below(map.len())].1,
            4 | 5 if !counting.is_empty() => counting[self.random.below(counting.len())],
            6 => now.reserve(),
            _ => self.random.below(now.blocks() as usize) as u32,
        }
    }

    /// Writes a block that is free, if one is found after some tries: content of any bytes, or a log block that leads astray.
    fn write(&mut self, now: u32) -> Result<(), String> {
        let before = self.walks.stores.now();
        let targets: Vec<u32> = (0..12).map(|_| self.target()).collect();
        let block = targets.iter().copied().find(|block| before.free(*block, now)).unwrap_or(targets[0]);
        let mut call = self.walks.stores.pair.good(4, block, now, [0, 1, 50, LATEST][self.random.below(4)]);
        let spoofed = self.random.below(2) == 0;
        match spoofed {
            true => call.data = self.spoofed_log(),
            false => self.random.fill(&mut call.data),
        }
        let number = self.send(&call)?;
        let reserve = number == 0 && block == self.kept.now.reserve();
        self.walks.seen.note_if("the reserve written", reserve);
        self.walks.seen.note_if("a spoofed log block in the reserve", reserve && spoofed);
        self.walks.seen.note_if("a block freed since X written", number == 0 && !self.kept.now.free(block, self.kept.point));
        self.old.push(call);
        Ok(())
    }

    /// Records that give each part another block, and a pointer to one that may be written next.
    fn spoofed_log(&mut self) -> Vec<u8> {
        let records: Vec<(u32, u32)> = (0..63).map(|_| (self.random.below(256) as u32, self.target())).collect();
        log_block(&records, self.target() as u64).to_vec()
    }

    fn change(&mut self, kind: u32, now: u32) -> Result<(), String> {
        let block = self.target();
        let call = self.walks.stores.pair.good(kind, block, now, [0, 1, 70][self.random.below(3)]);
        let accepted = self.send(&call)? == 0;
        let log = accepted && self.kept.logs.contains(&block);
        let version = accepted && self.kept.map.iter().any(|(_, newest)| *newest == block);
        let names = if kind == 5 { ["a log block unfrozen", "a version unfrozen"] } else { ["a log block lengthened", "a version lengthened"] };
        self.walks.seen.note_if(names[0], log);
        self.walks.seen.note_if(names[1], version);
        self.old.push(call);
        Ok(())
    }

    fn restart(&mut self, now: u32) -> Result<(), String> {
        let held = held(self.walks.stores.pair.memory()) != 255;
        self.walks.seen.note_if("a restart that loses a page", held);
        self.send(&Call::new(8, 0, now, 0)).map(|_| ())
    }

    /// An update again, with the page that it brought at its time: the tag is old, unless nothing came between.
    fn replay(&mut self, now: u32) -> Result<(), String> {
        if self.old.is_empty() {
            return Ok(());
        }
        let mut call = self.old[self.random.below(self.old.len())].clone();
        call.now = now;
        let number = self.send(&call)?;
        self.walks.seen.note_if("an old page brought", number == 7);
        Ok(())
    }

    /// A command that is refused: of no known kind, too late, with a wrong buffer, or to a block that the box does not have.
    fn spoiled(&mut self, now: u32) -> Result<(), String> {
        let (kind, block) = (4 + self.random.below(3) as u32, self.target());
        let mut call = self.walks.stores.pair.good(kind, block, now, 0);
        match self.random.below(5) {
            0 => call.kind = UNKNOWN[self.random.below(UNKNOWN.len())],
            1 => call.now = [LATEST + 1, u32::MAX][self.random.below(2)],
            2 => call.block = self.kept.now.blocks() + self.random.below(2000) as u32,
            3 => call.data.push(1),
            _ => call.proof[self.random.below(544)] ^= 1,
        }
        let number = self.send(&call)?;
        self.walks.seen.note_if("a command refused after X", number != 0);
        Ok(())
    }

    /// The store goes on, or a new one is started on the same box, whose log would begin at block 0.
    fn put(&mut self, now: u32) -> Result<(), String> {
        if self.random.below(20) == 0 {
            self.walks.stores.expect_start(1 + self.random.below(90) as u32, None, 0)?;
        }
        let part = self.random.below(6) as u32;
        let before = self.walks.stores.now();
        let done = self.walks.stores.put(&Put::new(part, now))?;
        self.walks.seen.note_if("a put after X", done.is_ok());
        let replaced = before.newest(part).is_some_and(|block| self.kept.map.contains(&(part, block)));
        self.walks.seen.note_if("a version replaced after X", done.is_ok() && replaced);
        Ok(())
    }

    fn flush(&mut self, now: u32) -> Result<(), String> {
        let pending = self.walks.stores.now().pending();
        let done = self.walks.stores.flush(now, Told::default())?;
        self.walks.seen.note_if("a log block stored after X", done.is_ok() && pending > 0);
        Ok(())
    }
}
