//! The archive's recovery and the host's, kept in step on one box: each call goes to both, and then the numbers, every byte of the
//! result, that memory and disk are as they were, and the canaries around them, are compared.
use super::super::room::Room;
use super::super::versions::snapshot::Snapshot;
use super::super::versions::stores::Stores;
use super::seen::Seen;
use super::trace::Trace;
use super::RESULT;
use crate::archive;

/// A call. Where a length is told, memory or disk is not of its own.
#[derive(Clone, Copy, Debug)]
pub struct Walk {
    pub point: u32,
    pub now: u32,
    pub result_len: usize,
    pub memory_len: Option<usize>,
    pub disk_len: Option<usize>,
}

impl Walk {
    pub fn new(point: u32, now: u32) -> Walk {
        Walk { point, now, result_len: RESULT, memory_len: None, disk_len: None }
    }
}

#[derive(Default)]
pub struct Walks {
    /// The box, with a version store where there is one.
    pub stores: Stores,
    archive: Room,
    own: Room,
    pub seen: Seen,
    pub made: usize,
}

impl Walks {
    /// The host's recovery is of an old box.
    pub fn migrated() -> Walks {
        Walks { stores: Stores::migrated(), ..Walks::default() }
    }

    pub fn load(&mut self, made: &Snapshot) {
        self.stores.load(&made.state, &made.memory, &made.disk);
    }

    pub fn result(&self) -> &[u8] {
        self.own.part()
    }

    /// The number that both answer. A result that is refused is of the bytes that it had.
    pub fn walk(&mut self, walk: &Walk) -> Result<u32, String> {
        self.made += 1;
        // Never FF, which a result has for none.
        let byte = self.made as u8 & 0x7F;
        let Walk { point, now, result_len, memory_len, disk_len } = *walk;
        let Walks { stores, archive: got, own, .. } = self;
        let own_recover = stores.pair.model.recover;
        for room in [&mut *got, &mut *own] {
            room.fill(result_len, byte, point as usize % 5);
        }
        let (by_archive, by_host) = (got.part_mut(), own.part_mut());
        let (number, right) = stores.pair.call_both(
            [memory_len, disk_len],
            |memory, disk| archive::recover(memory, disk, point, now, by_archive),
            |memory, disk| own_recover(memory, disk, point, now, by_host),
        );
        if number != right {
            return Err(self.told(walk, &format!("answered {number} instead of {right}")));
        }
        if let Some(difference) = self.archive.difference(&self.own) {
            return Err(self.told(walk, &format!("answered {number}, result: {difference}")));
        }
        self.stores.pair.compare_bytes(number).map_err(|difference| self.told(walk, &difference))?;
        if number != 0 && self.result().iter().any(|b| *b != byte) {
            return Err(self.told(walk, &format!("both answered {number} and changed the result")));
        }
        self.seen.number(number);
        Ok(number)
    }

    pub fn expect_number(&mut self, walk: &Walk, right: u32) -> Result<(), String> {
        let number = self.walk(walk)?;
        if number == right {
            return Ok(());
        }
        Err(self.told(walk, &format!("both answered {number} instead of {right}")))
    }

    /// The walk is accepted, and finds a block for these parts and for no others.
    pub fn expect(&mut self, point: u32, now: u32, found: &[(u32, u32)]) -> Result<(), String> {
        let walk = Walk::new(point, now);
        self.expect_number(&walk, 0)?;
        let mut right = [0xFF; RESULT];
        for (part, block) in found {
            right[4 * *part as usize..][..4].copy_from_slice(&block.to_le_bytes());
        }
        if self.result() == right {
            return Ok(());
        }
        Err(self.told(&walk, &format!("both found {:?} instead of {found:?}", self.found())))
    }

    /// The same of a box that is loaded first.
    pub fn expect_in(&mut self, made: &Snapshot, point: u32, now: u32, found: &[(u32, u32)]) -> Result<(), String> {
        self.load(made);
        self.expect(point, now, found)
    }

    /// An accepted walk is traced by the tester too, who notes its situations and finds the same.
    pub fn traced(&mut self, walk: &Walk) -> Result<u32, String> {
        let number = self.walk(walk)?;
        if number == 0 {
            let here = self.stores.now();
            let trace = Trace::of(&here, walk.point, walk.now);
            trace.notes.iter().for_each(|name| self.seen.note(name));
            if self.found() != trace.found() {
                return Err(self.told(walk, &format!("both found {:?} instead of {:?}", self.found(), trace.found())));
            }
        }
        Ok(number)
    }

    /// Part and block of each part that has one in the result.
    pub fn found(&self) -> Vec<(u32, u32)> {
        let blocks = self.result().as_chunks().0.iter().map(|block| u32::from_le_bytes(*block));
        (0..).zip(blocks).filter(|(_, block)| *block != u32::MAX).collect()
    }

    fn told(&self, walk: &Walk, difference: &str) -> String {
        let lengths = [self.stores.pair.memory().len(), self.stores.pair.disk().len()];
        format!("walk {}, {walk:?}, box of {lengths:?}: {difference}", self.made)
    }
}
