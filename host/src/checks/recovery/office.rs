//! A version store that is alone on a formatted box, up to a point X at which all its records are stored and the box is synced.
use super::super::call::{Call, LATEST};
use super::super::lists::List;
use super::super::versions::snapshot::Snapshot;
use super::super::versions::stores::{Put, Told};
use super::super::versions::BLOCK;
use super::walks::Walks;
use super::PARTS;
use crate::random::Random;
use crate::archive;
use std::collections::{BTreeMap, BTreeSet};

/// How often each step comes, of 100: a put, a refused one, a flush, a sync, a look, a list; else a new salt.
const WEIGHTS: [usize; 6] = [80, 4, 3, 3, 5, 3];

/// One store in so many is on the largest box, whose disk takes long to compare.
const LARGEST_EVERY: usize = 100;

/// What there was at X.
pub struct Kept {
    pub point: u32,
    pub lock: u32,
    /// Part and block of the store's own map.
    pub map: Vec<(u32, u32)>,
    /// Each part's newest content.
    pub contents: BTreeMap<u32, Vec<u8>>,
    pub logs: Vec<u32>,
    /// Blocks that count down then, replaced versions.
    pub counting: Vec<u32>,
    pub now: Snapshot,
}

pub struct Office<'a> {
    pub walks: &'a mut Walks,
    pub random: &'a mut Random,
    now: u32,
    lock: u32,
    contents: BTreeMap<u32, Vec<u8>>,
    /// The blocks that versions were put into.
    taken: BTreeSet<u32>,
}

impl<'a> Office<'a> {
    pub fn new(walks: &'a mut Walks, random: &'a mut Random) -> Result<Office<'a>, String> {
        let most = walks.stores.pair.model.most_groups;
        let groups = if random.below(LARGEST_EVERY) == 0 { most } else { [1, 1, 1, 2, 2, 3, 16][random.below(7)] };
        walks.seen.note_if("a store on the largest box", groups == most);
        let lock = [1, 3, 20, 20, 90, 90, 4000, LATEST - random.below(3) as u32][random.below(8)];
        let now = [0, 1, 1000, 1_000_000_000, LATEST - 9000][random.below(5)];
        walks.stores.load_started(groups, lock)?;
        Ok(Office { walks, random, now, lock, contents: BTreeMap::new(), taken: BTreeSet::new() })
    }

    /// Some calls, then a flush and a sync: what there is then, or nothing where the box is too full for the flush.
    pub fn run(&mut self) -> Result<Option<Kept>, String> {
        let steps = [0, 1, 8, 30, 63, 80, 140, 220][self.random.below(8)];
        for _ in 0..steps {
            self.now += [0, 0, 0, 1, 2, 9][self.random.below(6)];
            self.step()?;
        }
        if self.walks.stores.flush(self.now, Told::default())?.is_err() {
            self.pass_lock();
            if self.walks.stores.flush(self.now, Told::default())?.is_err() {
                return Ok(None);
            }
        }
        let point = self.now + [0, 0, 1, 50][self.random.below(4)];
        self.walks.stores.expect_flush(point, Told::default(), 0)?;
        self.walks.stores.expect_command(7, 0, point, 0)?;
        self.walks.seen.note_if("a store that flushed before X", point > self.now);
        self.kept(point).map(Some)
    }

    fn step(&mut self) -> Result<(), String> {
        let (now, any) = (self.now, self.random.below(self.walks.stores.pair.disk().len() / 33_280 * 64) as u32);
        let stores = &mut self.walks.stores;
        match self.random.weighted(&WEIGHTS) {
            Some(0) => self.put(),
            Some(1) => self.refused_put(),
            Some(2) => stores.flush(now, Told::default()).map(|_| ()),
            Some(3) => stores.expect_command(7, 0, now, 0),
            Some(4) => stores.expect_command([1, 2, 10][self.random.below(3)], any, now, 0),
            Some(5) => stores.pair.expect_list(&List::new(&[any], now), Ok(1)),
            _ => {
                self.walks.seen.note("a new salt before X");
                new_salt(self.walks, self.random, now).map(|_| ())
            }
        }
    }

    /// A version of one of a few parts, or of any.
    fn put(&mut self) -> Result<(), String> {
        let part = [self.random.below(5), self.random.below(20), self.random.below(256)][self.random.below(3)] as u32;
        let mut put = Put::new(part, self.now);
        self.random.fill(&mut put.content);
        match self.walks.stores.put(&put)? {
            Ok(block) => {
                self.walks.seen.note_if("a store whose blocks were used again", !self.taken.insert(block));
                self.contents.insert(part, put.content);
            }
            // Full for the moment.
            Err(_) => self.pass_lock(),
        }
        Ok(())
    }

    /// Replaced versions lapse, where the lock is not too long to wait for.
    fn pass_lock(&mut self) {
        if self.lock < 1000 {
            self.now += self.lock + 2;
        }
    }

    fn refused_put(&mut self) -> Result<(), String> {
        let mut put = Put::new([3, 256][self.random.below(2)], self.now);
        match self.random.below(3) {
            0 => put.part = [256, u32::MAX][self.random.below(2)],
            1 => put.content.truncate(511),
            _ => put.now = LATEST + 1,
        }
        match self.walks.stores.put(&put)? {
            Ok(block) => Err(format!("a put that was to be refused answered block {block}")),
            Err(_) => {
                self.walks.seen.note("a store's call refused");
                Ok(())
            }
        }
    }

    /// The map by both stores' own lookup.
    fn kept(&mut self, point: u32) -> Result<Kept, String> {
        let now = self.walks.stores.now();
        let mut map = Vec::new();
        for part in 0..PARTS {
            let own = (self.walks.stores.pair.model.block)(&now.state, part);
            let [got, own] = [archive::versions_block(&now.state, part), archive::outcome(own)];
            if got != own || got as u32 != 0 {
                return Err(format!("the block of part {part} at X is {got:016x}, and by the host's store {own:016x}"));
            }
            map.push((part, (got >> 32) as u32));
        }
        map.retain(|(_, block)| *block != u32::MAX);
        let logs = logs(&now);
        for (name, here) in [
            ("a store without a put", logs.is_empty()),
            ("a store of one log block", logs.len() == 1),
            ("a store of several log blocks", logs.len() > 1),
        ] {
            self.walks.seen.note_if(name, here);
        }
        let counting = (0..now.blocks()).filter(|block| !now.frozen(*block) && !now.free(*block, point)).collect();
        Ok(Kept { point, lock: self.lock, map, contents: std::mem::take(&mut self.contents), logs, counting, now })
    }
}

/// The log blocks from block 0 to the reserve.
fn logs(now: &Snapshot) -> Vec<u32> {
    let (mut at, mut logs) = (0, Vec::new());
    while at != now.reserve() {
        logs.push(at);
        let pointer = BLOCK * (at + at / 64) as usize + 504;
        at = u32::from_le_bytes(now.disk[pointer..pointer + 4].try_into().unwrap());
    }
    logs
}

/// A salt that has not been there, since under one that comes again an old page could match: its number.
pub fn new_salt(walks: &mut Walks, random: &mut Random, now: u32) -> Result<u32, String> {
    let mut call = Call::new(9, 0, now, 0);
    random.fill(&mut call.data);
    walks.stores.pair.command(&call)
}
