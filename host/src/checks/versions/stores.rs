//! The archive's version store and the host's, kept in step: each call goes to both, and then the numbers, the blocks,
//! every byte of state, memory, disk and content, and the canaries around them, are compared.
use super::super::call::{number, GROUP};
use super::super::pair::Pair;
use super::super::room::Room;
use super::seen::Seen;
use super::snapshot::Snapshot;
use super::{situations, RESERVE_AT, STATE};
use crate::versions::Refusal;
use crate::{archive, versions};

/// The lengths that are told to the stores where they are not those of the buffers.
#[derive(Clone, Copy, Debug, Default)]
pub struct Told {
    pub state: Option<usize>,
    pub memory: Option<usize>,
    pub disk: Option<usize>,
}

#[derive(Clone)]
pub struct Put {
    pub part: u32,
    pub now: u32,
    pub content: Vec<u8>,
    pub told: Told,
}

impl Put {
    /// A version of the part that can be told from others.
    pub fn new(part: u32, now: u32) -> Put {
        let content = (0..512).map(|i| (part.wrapping_mul(7) ^ now.wrapping_mul(13)).wrapping_add(i) as u8).collect();
        Put { part, now, content, told: Told::default() }
    }
}

#[derive(Default)]
struct Side {
    state: Room,
    content: Room,
}

#[derive(Default)]
pub struct Stores {
    pub pair: Pair,
    archive: Side,
    own: Side,
    pub seen: Seen,
}

impl Stores {
    /// The host's store is on an old box.
    pub fn migrated() -> Stores {
        Stores { pair: Pair::migrated(), ..Stores::default() }
    }

    /// Gives both stores this state, memory and disk.
    pub fn load(&mut self, state: &[u8], memory: &[u8], disk: &[u8]) {
        self.load_state(state);
        self.pair.load(memory, disk);
    }

    pub fn load_state(&mut self, state: &[u8]) {
        for side in [&mut self.archive, &mut self.own] {
            side.state.put(state, self.pair.index % 9);
        }
    }

    /// Loads a formatted box, and starts a store on it.
    pub fn load_started(&mut self, groups: usize, lock: u32) -> Result<(), String> {
        self.load_state(&[0xAA; STATE]);
        self.pair.load_formatted_over(&vec![0; GROUP * groups], 0, groups as u32, &[3; 32])?;
        self.expect_start(lock, None, 0)
    }

    pub fn now(&self) -> Snapshot {
        let [memory, disk] = [self.pair.memory(), self.pair.disk()].map(<[u8]>::to_vec);
        Snapshot { state: self.state().to_vec(), memory, disk }
    }

    fn is_as(&self, before: &Snapshot) -> bool {
        self.state() == before.state && self.pair.memory() == before.memory && self.pair.disk() == before.disk
    }

    pub fn state(&self) -> &[u8] {
        self.own.state.part()
    }

    pub fn expect_start(&mut self, lock: u32, state_len: Option<usize>, right: u32) -> Result<(), String> {
        let before = self.now();
        self.pair.index += 1;
        let len = state_len.unwrap_or(self.state().len());
        let got = archive::versions_start(self.archive.state.view_mut(len), lock);
        let own = versions::start(self.own.state.view_mut(len), lock);
        let what = format!("start with lock {lock}, state of {len}");
        self.compare(&what, got as u64, own as u64, Some(&before).filter(|_| own != 0))?;
        self.seen.start(own);
        expected(&what, own as u64, right as u64)
    }

    /// The block of the version, or the refusal.
    pub fn put(&mut self, put: &Put) -> Result<Result<u32, Refusal>, String> {
        let before = self.now();
        let Put { part, now, told, .. } = *put;
        let len = told.state.unwrap_or(self.state().len());
        for side in [&mut self.archive, &mut self.own] {
            side.content.put(&put.content, self.pair.index % 5);
        }
        let Stores { archive: a, own: b, pair, .. } = self;
        let own_put = pair.model.put;
        let (state, content) = (a.state.view_mut(len), a.content.part());
        let by_archive = |memory: &mut [u8], disk: &mut [u8]| {
            (archive::versions_put(state, memory, disk, part, now, content), Ok(0))
        };
        let (state, content) = (b.state.view_mut(len), b.content.part());
        let by_host = |memory: &mut [u8], disk: &mut [u8]| {
            let done = own_put(state, memory, disk, part, now, content);
            (archive::outcome(done.map_err(|refusal| refusal.number)), done)
        };
        let ((got, _), (right, done)) = pair.call_both([told.memory, told.disk], by_archive, by_host);
        let what = format!("put of part {part} at {now}, {} bytes, told {told:?}", put.content.len());
        self.compare(&what, got, right, Some(&before).filter(|_| done.is_err()))?;
        self.seen.put(right as u32);
        let reserve = if self.state().len() == STATE { number(self.state(), RESERVE_AT) } else { 0 };
        situations::of_put(&mut self.seen, &before, put, done, reserve);
        Ok(done)
    }

    /// A put that is to answer this block, or to get this number.
    pub fn expect_put(&mut self, put: &Put, right: Result<u32, u32>) -> Result<(), String> {
        let done = self.put(put)?.map_err(|refusal| refusal.number);
        expected(&self.place("put"), archive::outcome(done), archive::outcome(right))
    }

    pub fn flush(&mut self, now: u32, told: Told) -> Result<Result<(), Refusal>, String> {
        let before = self.now();
        let len = told.state.unwrap_or(self.state().len());
        let Stores { archive: a, own: b, pair, .. } = self;
        let own_flush = pair.model.flush;
        let state = a.state.view_mut(len);
        let by_archive = |memory: &mut [u8], disk: &mut [u8]| (archive::versions_flush(state, memory, disk, now), Ok(()));
        let state = b.state.view_mut(len);
        let by_host = |memory: &mut [u8], disk: &mut [u8]| {
            let done = own_flush(state, memory, disk, now);
            (done.err().map_or(0, |refusal| refusal.number), done)
        };
        let ((got, _), (right, done)) = pair.call_both([told.memory, told.disk], by_archive, by_host);
        let nothing = done.is_err() || before.pending() == 0;
        let what = format!("flush at {now}, told {told:?}");
        self.compare(&what, got as u64, right as u64, Some(&before).filter(|_| nothing))?;
        self.seen.flush(right);
        situations::of_flush(&mut self.seen, &before, now, done);
        Ok(done)
    }

    pub fn expect_flush(&mut self, now: u32, told: Told, right: u32) -> Result<(), String> {
        let done = self.flush(now, told)?;
        expected(&self.place("flush"), done.err().map_or(0, |refusal| refusal.number) as u64, right as u64)
    }

    /// The block of the part's newest version, or the number.
    pub fn block(&mut self, part: u32, state_len: Option<usize>) -> Result<Result<u32, u32>, String> {
        let before = self.now();
        self.pair.index += 1;
        let len = state_len.unwrap_or(self.state().len());
        let got = archive::versions_block(self.archive.state.view_mut(len), part);
        let right = (self.pair.model.block)(self.own.state.view_mut(len), part);
        let what = format!("block of part {part}, state of {len}");
        self.compare(&what, got, archive::outcome(right), Some(&before))?;
        self.seen.block(right.err().unwrap_or(0));
        Ok(right)
    }

    pub fn expect_block(&mut self, part: u32, right: Result<u32, u32>) -> Result<(), String> {
        let found = self.block(part, None)?;
        expected(&self.place("block"), archive::outcome(found), archive::outcome(right))
    }

    /// A command of somebody else, with the current page: its number.
    pub fn command(&mut self, kind: u32, block: u32, now: u32, value: u32) -> Result<u32, String> {
        let before = self.now();
        let call = self.pair.good(kind, block, now, value);
        let number = self.pair.command(&call)?;
        situations::of_command(&mut self.seen, &before, kind, block, number);
        Ok(number)
    }

    pub fn expect_command(&mut self, kind: u32, block: u32, now: u32, value: u32) -> Result<(), String> {
        let number = self.command(kind, block, now, value)?;
        expected(&format!("kind {kind} block {block} at {now}"), number as u64, 0)
    }

    /// Numbers and bytes are the same; where `before` is given, nothing has changed since.
    fn compare(&self, what: &str, got: u64, right: u64, before: Option<&Snapshot>) -> Result<(), String> {
        let (what, number) = (self.place(what), right as u32);
        if got != right {
            return Err(format!("{what}: answered {} instead of {}", in_words(got), in_words(right)));
        }
        let (a, b) = (&self.archive, &self.own);
        for (name, got, right) in [("state", &a.state, &b.state), ("content", &a.content, &b.content)] {
            if let Some(difference) = got.difference(right) {
                return Err(format!("{what}: answered {number}, {name}: {difference}"));
            }
        }
        self.pair.compare_bytes(number).map_err(|e| format!("{what}: {e}"))?;
        match before {
            Some(before) if !self.is_as(before) => Err(format!("{what}: both changed a byte")),
            _ => Ok(()),
        }
    }

    fn place(&self, what: &str) -> String {
        format!("call {}, {what}", self.pair.index)
    }
}

/// Both answered what was written by hand.
fn expected(what: &str, own: u64, right: u64) -> Result<(), String> {
    if own == right {
        return Ok(());
    }
    Err(format!("{what}: both answered {} instead of {}", in_words(own), in_words(right)))
}

/// The two halves of an answer.
fn in_words(answer: u64) -> String {
    format!("{} and block {}", answer as u32, answer >> 32)
}
