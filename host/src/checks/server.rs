//! A server that sends commands to one box at random, and lists: most are good, with the pages that
//! it keeps and a time that moves on, and some are spoiled.
mod lists;
pub use lists::numbers;

use super::call::{number, page, proof, Call, LATEST, UNKNOWN};
use super::pair::Pair;
use super::places::{self, last_time, COUNTS};
use super::room::GUARD;
use crate::random::Random;

/// How often each kind is sent, in order, of 100.
const WEIGHTS: [usize; 10] = [9, 12, 7, 24, 16, 18, 5, 4, 2, 3];
/// The same by an office that forgets to sync, so that pages leave by themselves.
const FORGETFUL: [usize; 10] = [7, 9, 5, 29, 19, 29, 0, 0, 0, 2];
/// Such an office stays with one group, and changes it at one update in so many.
const CHANGE_EVERY: usize = 80;
const LIMITS: [u32; 8] = [0, 1, LATEST - 1, LATEST, LATEST + 1, LATEST + 2, u32::MAX - 1, u32::MAX];
const KEPT: usize = 24;
/// One step in so many sends a list.
const LIST_EVERY: usize = 12;

pub struct Server<'a> {
    pub pair: &'a mut Pair,
    pub random: &'a mut Random,
    groups: usize,
    /// Each group's page and tag as last answered, while they are current.
    pages: Vec<Option<Vec<u8>>>,
    /// Earlier answers, of this box and others.
    old: &'a mut Vec<Vec<u8>>,
    /// The group with which an office stays that forgets to sync.
    forgetful: Option<usize>,
    /// How many pages have left by themselves.
    pub left: usize,
}

impl<'a> Server<'a> {
    pub fn new(pair: &'a mut Pair, random: &'a mut Random, old: &'a mut Vec<Vec<u8>>) -> Self {
        let groups = places::groups(pair.memory());
        let forgetful = (random.below(2) == 0).then_some(groups - 1);
        Server { pair, random, groups, pages: vec![None; groups], old, forgetful, left: 0 }
    }

    pub fn step(&mut self) -> Result<(), String> {
        if self.random.below(LIST_EVERY) == 0 {
            return self.send_list();
        }
        let mut call = self.good();
        let mut poked = None;
        for _ in 0..[0, 0, 0, 0, 0, 0, 1, 1, 2, 3][self.random.below(10)] {
            poked = self.spoil(&mut call).or(poked);
        }
        self.poke(poked);
        let answered = self.pair.command(&call)?;
        if answered == 0 {
            self.keep(&call);
        } else {
            self.poke(poked);
        }
        Ok(())
    }

    /// Flips a bit of the memory, or flips it back.
    fn poke(&mut self, poked: Option<(usize, u8)>) {
        if let Some((at, bit)) = poked {
            self.pair.change_memory(|memory| memory[at] ^= bit);
        }
    }

    /// Takes note of an accepted command.
    fn keep(&mut self, call: &Call) {
        match call.kind {
            3 => self.renew(call.block as usize),
            4..=6 => {
                self.left += usize::from(places::held(self.pair.memory()) == 255);
                self.renew(call.block as usize / 64);
            }
            8 | 9 => (0..self.groups).for_each(|group| self.forget(group)),
            _ => {}
        }
    }

    fn renew(&mut self, group: usize) {
        self.forget(group);
        self.pages[group] = Some(self.pair.answer().to_vec());
    }

    fn forget(&mut self, group: usize) {
        let Some(page) = self.pages[group].take() else {
            return;
        };
        if self.old.len() < KEPT {
            self.old.push(page);
        } else {
            let place = self.random.below(KEPT);
            self.old[place] = page;
        }
    }

    fn kind(&mut self) -> u32 {
        let weights = if self.forgetful.is_some() { &FORGETFUL } else { &WEIGHTS };
        self.random.weighted(weights).map_or(10, |place| place as u32 + 1)
    }

    fn group(&mut self) -> usize {
        let any = self.random.below(self.groups);
        match &mut self.forgetful {
            Some(group) if self.random.below(CHANGE_EVERY) > 0 => *group,
            Some(group) => {
                *group = any;
                any
            }
            None => any,
        }
    }

    fn now(&mut self) -> u32 {
        let step = [2, 2, 2, 2, 20, 20, 20, 200, 200, 5000][self.random.below(10)];
        let now = last_time(self.pair.memory()).saturating_add(self.random.below(step) as u32);
        now.min(LATEST)
    }

    fn value(&mut self) -> u32 {
        match self.random.below(12) {
            0 => LIMITS[self.random.below(LIMITS.len())],
            1 => self.random.next() as u32,
            2 | 3 => self.random.below(3) as u32,
            _ => self.random.below(60) as u32,
        }
    }

    /// A command that should pass, or kind 3 where the server lacks the page.
    fn good(&mut self) -> Call {
        let (kind, now, value) = (self.kind(), self.now(), self.value());
        let group = self.group();
        if !(4..=6).contains(&kind) {
            let block = if kind == 3 { group } else { self.random.below(64 * self.groups) };
            let mut call = Call::new(kind, block as u32, now, value);
            self.random.fill(&mut call.data);
            return call;
        }
        let Some(proof) = self.pages[group].clone() else {
            return Call::new(3, group as u32, now, 0);
        };
        let index = self.fitting(kind, now, &proof);
        let mut call = Call::new(kind, (64 * group + index) as u32, now, value);
        call.proof = proof;
        self.random.fill(&mut call.data);
        call
    }

    /// A block of the page, after a few tries one that the kind may change.
    fn fitting(&mut self, kind: u32, now: u32, page: &[u8]) -> usize {
        let mut index = 0;
        for _ in 0..20 {
            index = self.random.below(64);
            let (word, frozen) = (number(page, 8 * index), page[8 * index + 4] & 1 == 0);
            let fits = match kind {
                4 => !frozen && word <= now,
                5 => frozen,
                _ => frozen || word > now,
            };
            if fits {
                break;
            }
        }
        index
    }

    /// Makes one thing wrong, or merely unusual. A bit of the memory to be flipped is given back.
    fn spoil(&mut self, call: &mut Call) -> Option<(usize, u8)> {
        match self.random.below(19) {
            0 => call.kind = UNKNOWN[self.random.below(UNKNOWN.len())],
            1 => call.kind = self.random.below(12) as u32,
            2 => call.now = self.time(),
            3 => call.block = self.block(),
            4 => call.block = self.random.below(64 * self.groups) as u32,
            5 => call.value = LIMITS[self.random.below(LIMITS.len())],
            6 => call.memory_len = Some(self.length(self.pair.memory().len(), self.pair.memory().len() + GUARD)),
            7 => call.disk_len = Some(self.disk_length()),
            8 => call.answer_len = self.length(544, 700),
            9 => call.data.resize(self.length(call.data.len(), 600), 1),
            10 => call.proof.resize(self.length(call.proof.len(), 600), 1),
            11 => self.flip(&mut call.proof),
            12 if !self.old.is_empty() => call.proof = self.old[self.random.below(self.old.len())].clone(),
            13 => call.proof = self.pages[self.random.below(self.groups)].clone().unwrap_or_default(),
            14 | 15 if (4..=6).contains(&call.kind) => self.forge(call),
            16 => *call = self.present_salt(),
            17 => return Some(self.header_bit()),
            _ => return Some(self.memory_bit()),
        }
        None
    }

    /// A bit of the fields from the last time on, up to the held page.
    fn header_bit(&mut self) -> (usize, u8) {
        (self.pair.model.places.last_time + self.random.below(8), 1 << self.random.below(8))
    }

    /// A bit behind the salt.
    fn memory_bit(&mut self) -> (usize, u8) {
        (COUNTS + self.random.below(self.pair.memory().len() - COUNTS), 1 << self.random.below(8))
    }

    fn time(&mut self) -> u32 {
        let last = last_time(self.pair.memory());
        let list = [last, last.wrapping_sub(1), last + 1, 0, LATEST, LATEST + 1, u32::MAX];
        list[self.random.below(list.len())]
    }

    fn block(&mut self) -> u32 {
        let end = 64 * self.groups as u32;
        let list = [0, 63, 64, end - 1, end, end + 1, end / 64, 1023, 1024, 4095, 4096, u32::MAX];
        list[self.random.below(list.len())]
    }

    /// A length around the right one, and at most so many.
    fn length(&mut self, right: usize, most: usize) -> usize {
        match self.random.below(6) {
            0 => 0,
            1 => 1,
            2 => right.saturating_sub(1),
            3 => right + 1,
            4 => self.random.below(most + 1),
            _ => [32, 512, 544][self.random.below(3)],
        }
    }

    fn disk_length(&mut self) -> usize {
        let right = self.pair.disk().len();
        let shorter = |by: usize| right.saturating_sub(by);
        [0, 1, shorter(33_280), shorter(512), shorter(1), right + 1, right + GUARD][self.random.below(7)]
    }

    fn flip(&mut self, bytes: &mut [u8]) {
        if !bytes.is_empty() {
            bytes[self.random.below(bytes.len())] ^= 1 << self.random.below(8);
        }
    }

    /// A page that never was, with a tag that fits.
    fn forge(&mut self, call: &mut Call) {
        let group = call.block as usize / 64;
        if group >= self.groups {
            return;
        }
        let mut forged = page(self.pair.memory(), self.pair.disk(), group).to_vec();
        let entry = &mut forged[8 * (call.block as usize % 64)..][..8];
        self.random.fill(entry);
        if self.random.below(2) == 0 {
            entry[..4].copy_from_slice(&LIMITS[self.random.below(LIMITS.len())].to_le_bytes());
        }
        call.proof = proof(self.pair.memory(), group, &forged);
    }

    /// A new salt that is the present one.
    fn present_salt(&mut self) -> Call {
        let mut call = Call::new(9, 0, self.now(), 0);
        call.data = self.pair.memory()[..32].to_vec();
        call
    }
}
