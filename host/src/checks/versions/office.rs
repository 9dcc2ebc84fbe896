//! An office that puts versions at random, and others who command the same box between its calls: most calls are good,
//! with a time that moves on, and some are spoiled.
use super::super::call::{put_number, LATEST};
use super::super::places::{groups, last_time};
use super::super::room::GUARD;
use super::snapshot::Snapshot;
use super::stores::{Put, Stores, Told};
use super::{
    set_count, set_newest, set_records, BLANK, LAST_AT, LOCK_AT, MOST_PENDING, NEWEST_AT, NONE, PENDING_AT, RECORDS_AT, RESERVE_AT,
};
use crate::random::Random;

/// How often each step comes, of 100: a good put, a spoiled one, a flush, a spoiled one, a look, a start, another's command,
/// one aimed at the store, and a change of the box or the state by no call.
const WEIGHTS: [usize; 9] = [50, 9, 2, 3, 4, 1, 10, 13, 8];

pub struct Office<'a> {
    pub stores: &'a mut Stores,
    pub random: &'a mut Random,
}

impl Office<'_> {
    pub fn step(&mut self) -> Result<(), String> {
        let now = self.time();
        match self.random.weighted(&WEIGHTS) {
            Some(0) => {
                let put = self.put(now);
                self.stores.put(&put).map(|_| ())
            }
            Some(1) => self.spoiled_put(now),
            Some(2) => self.stores.flush(now, Told::default()).map(|_| ()),
            Some(3) => self.spoiled_flush(now),
            Some(4) => self.look(),
            Some(5) => self.start(),
            Some(6) => self.any_command(now),
            Some(7) => self.aimed_command(now),
            _ => self.change(now),
        }
    }

    fn time(&mut self) -> u32 {
        let step = [1, 1, 2, 2, 3, 3, 9, 9, 50, 400][self.random.below(10)];
        last_time(self.stores.pair.memory()).saturating_add(self.random.below(step) as u32).min(LATEST)
    }

    /// A version of one of a few parts, and sometimes of any.
    fn put(&mut self, now: u32) -> Put {
        let part = [self.random.below(6), self.random.below(6), self.random.below(256)][self.random.below(3)];
        let mut put = Put::new(part as u32, now);
        self.random.fill(&mut put.content[..8]);
        put
    }

    fn told(&mut self) -> Told {
        let (disk, size) = (self.stores.pair.disk().len(), self.stores.pair.model.places.size);
        let mut told = Told::default();
        match self.random.below(3) {
            0 => told.state = Some([0, 1535, 1537, 1536 + GUARD, self.random.below(1536)][self.random.below(5)]),
            1 => told.memory = Some([0, size - 1, size + 1, size + GUARD, self.random.below(size)][self.random.below(5)]),
            _ => told.disk = Some([0, disk - 512, disk - 1, disk + 1, disk + GUARD][self.random.below(5)]),
        }
        told
    }

    fn wrong_time(&mut self) -> u32 {
        let last = last_time(self.stores.pair.memory());
        [last.wrapping_sub(1), 0, LATEST, LATEST + 1, u32::MAX][self.random.below(5)]
    }

    fn spoiled_put(&mut self, now: u32) -> Result<(), String> {
        let mut put = self.put(now);
        for _ in 0..1 + self.random.below(4) {
            match self.random.below(5) {
                0 => put.part = [256, 257, 1024, 65_536, u32::MAX][self.random.below(5)],
                1 => put.now = self.wrong_time(),
                2 => put.content.resize([0, 1, 511, 513, 544][self.random.below(5)], 3),
                _ => put.told = self.told(),
            }
        }
        self.with_poke(|office| office.stores.put(&put).map(|_| ()))
    }

    fn spoiled_flush(&mut self, now: u32) -> Result<(), String> {
        let now = if self.random.below(3) == 0 { self.wrong_time() } else { now };
        let told = if self.random.below(3) == 0 { self.told() } else { Told::default() };
        self.with_poke(|office| office.stores.flush(now, told).map(|_| ()))
    }

    /// A call, in some cases with a byte of the memory or of the state wrong; it is put right again.
    fn with_poke(&mut self, call: impl FnOnce(&mut Self) -> Result<(), String>) -> Result<(), String> {
        match self.random.below(6) {
            0 => {
                let zero = self.stores.pair.model.places.zero;
                self.stores.pair.change_memory(|memory| memory[zero] ^= 1);
                call(self)?;
                self.stores.pair.change_memory(|memory| memory[zero] ^= 1);
            }
            1 => {
                let right = self.stores.state().to_vec();
                let mut wrong = right.clone();
                let fields = [(LOCK_AT, 0), (LOCK_AT, LATEST + 1), (PENDING_AT, 63), (1532, 0), (NEWEST_AT, 4096), (RECORDS_AT, 256)];
                let (at, number) = fields[self.random.below(6)];
                put_number(&mut wrong, at, number);
                self.stores.load_state(&wrong);
                call(self)?;
                self.stores.load_state(&right);
            }
            _ => call(self)?,
        }
        Ok(())
    }

    fn look(&mut self) -> Result<(), String> {
        let part = [self.random.below(6), self.random.below(300)][self.random.below(2)] as u32;
        let told = if self.random.below(6) == 0 { Some([0, 1535, 1537][self.random.below(3)]) } else { None };
        self.with_poke(|office| office.stores.block(part, told).map(|_| ()))
    }

    /// A new store on the same box; at times it is refused.
    fn start(&mut self) -> Result<(), String> {
        match self.random.below(3) {
            0 => self.stores.expect_start([0, LATEST + 1][self.random.below(2)], None, 10),
            1 => self.stores.expect_start(0, Some([1535, 1537][self.random.below(2)]), 1),
            _ => self.stores.expect_start(1 + self.random.below(30) as u32, None, 0),
        }
    }

    fn any_command(&mut self, now: u32) -> Result<(), String> {
        let kind = [1, 2, 4, 4, 5, 5, 6, 7, 7, 8, 9, 10][self.random.below(12)];
        let blocks = 64 * groups(self.stores.pair.memory());
        let block = self.random.below(blocks) as u32;
        self.stores.command(kind, block, now, self.random.below(40) as u32).map(|_| ())
    }

    /// A command to the reserve, or to the block of one of the parts that are often put.
    fn aimed_command(&mut self, now: u32) -> Result<(), String> {
        let before = self.stores.now();
        let newest = before.newest(self.random.below(6) as u32);
        let block = if self.random.below(5) == 0 { Some(before.reserve()) } else { newest };
        let kind = if block.is_some_and(|block| before.free(block, now)) { 4 } else { [5, 5, 6][self.random.below(3)] };
        let value = [0, 1, 5, 30][self.random.below(4)];
        let Some(block) = block.filter(|block| *block < before.blocks()) else {
            return Ok(());
        };
        self.stores.command(kind, block, now, value).map(|_| ())
    }

    /// The state or the box becomes what the calls so far have not made of it; in half of the cases a put follows, of the part
    /// that may be concerned.
    fn change(&mut self, now: u32) -> Result<(), String> {
        let mut made = self.stores.now();
        let part = self.random.below(6) as u32;
        match self.random.below(20) {
            0..=3 => self.change_state(&mut made, part),
            4..=8 => self.change_box(&mut made, part, now),
            9 | 10 => self.fill_log(&mut made, part),
            _ => self.recover(&mut made),
        }
        self.stores.load(&made.state, &made.memory, &made.disk);
        if self.random.below(2) == 0 {
            return Ok(());
        }
        self.stores.put(&Put::new(part, now)).map(|_| ())
    }

    /// A newest block, a last taken one or a reserve that is in no group, or that meets another.
    fn change_state(&mut self, made: &mut Snapshot, part: u32) {
        let (blocks, reserve) = (made.blocks(), made.reserve());
        let end = 64 * self.stores.pair.model.most_groups as u32;
        let any = self.random.below(blocks as usize) as u32;
        let state = &mut made.state;
        match self.random.below(4) {
            0 => set_newest(state, part, [blocks % end, end - 1, reserve % end][self.random.below(3)]),
            1 => put_number(state, LAST_AT, [0, blocks - 1, blocks, end - 1, end, u32::MAX][self.random.below(6)]),
            2 => put_number(state, RESERVE_AT, [any, blocks - 1, blocks, u32::MAX][self.random.below(4)]),
            _ => put_number(state, LAST_AT, reserve.wrapping_sub(1 + any % 3)),
        }
    }

    /// A count that is nearly spent, an entry of the part's version or of the reserve, few free blocks, or a held page that is
    /// to leave soon.
    fn change_box(&mut self, made: &mut Snapshot, part: u32, now: u32) {
        let blocks = made.blocks();
        let version = made.newest(part).filter(|block| *block < blocks).unwrap_or(0);
        match self.random.below(7) {
            0 => set_count(&mut made.memory, self.random.below(blocks as usize / 64), self.nearly_spent()),
            5 | 6 if made.held() != 255 => made.set_updates(61 + self.random.below(3) as u8),
            1 | 2 => made.set_entry(version, [(u32::MAX - now, 8), (now, 9), (0, 8)][self.random.below(3)]),
            3 => made.set_entry(made.reserve() % blocks, [(0, 1), (9, 8)][self.random.below(2)]),
            _ => self.leave_free(made, now),
        }
    }

    fn nearly_spent(&mut self) -> u32 {
        u32::MAX - 1 - self.random.below(4) as u32
    }

    /// A log that is full but for a record or two: with the last block of a group to be taken next, with a count that is
    /// nearly spent, with a version of lock 0 near the next block, or with the reserve as the part's version. The reserve's
    /// page, if held, is to leave soon.
    fn fill_log(&mut self, made: &mut Snapshot, part: u32) {
        let blocks = made.blocks();
        let (any, reserve) = (self.random.below(blocks as usize) as u32, made.reserve() % blocks);
        if made.held() == reserve / 64 {
            made.set_updates(61 + self.random.below(3) as u8);
        }
        match self.random.below(4) {
            0 => {
                set_records(&mut made.state, &vec![(part, any); [1, 60, 61, 62][self.random.below(4)]]);
                put_number(&mut made.state, LAST_AT, any / 64 * 64 + 61 + any % 2);
            }
            1 => {
                set_records(&mut made.state, &[(part, any); MOST_PENDING]);
                set_count(&mut made.memory, reserve as usize / 64, self.nearly_spent());
            }
            2 => {
                set_records(&mut made.state, &[(part, any); MOST_PENDING]);
                set_newest(&mut made.state, part, any);
                made.set_entry(any, (0, 8));
                put_number(&mut made.state, LAST_AT, any.wrapping_sub(self.random.below(4) as u32));
            }
            _ => {
                set_records(&mut made.state, &[(part, any); MOST_PENDING]);
                set_newest(&mut made.state, part, reserve);
                made.set_entry(reserve, (9, 8));
            }
        }
    }

    /// A box in which puts are accepted again: counts that are low, blocks that are free, versions that are frozen.
    fn recover(&mut self, made: &mut Snapshot) {
        let (blocks, reserve) = (made.blocks(), made.reserve());
        (0..blocks as usize / 64).for_each(|group| set_count(&mut made.memory, group, 1));
        (0..blocks).filter(|_| self.random.below(4) > 0).for_each(|block| made.set_entry(block, BLANK));
        put_number(&mut made.state, RESERVE_AT, reserve % blocks);
        made.set_entry(reserve % blocks, BLANK);
        for part in 0..256 {
            match made.newest(part).filter(|block| *block < blocks && *block != reserve % blocks) {
                Some(block) => made.set_entry(block, (9, 8)),
                None => set_newest(&mut made.state, part, NONE),
            }
        }
    }

    /// Blocks become frozen or counting until one, two or three are free, the reserve's among them or not.
    fn leave_free(&mut self, made: &mut Snapshot, now: u32) {
        let left: Vec<u32> = (0..1 + self.random.below(3)).map(|_| self.random.below(made.blocks() as usize) as u32).collect();
        let with_reserve = self.random.below(2) == 0;
        for block in 0..made.blocks() {
            let keep = left.contains(&block) || with_reserve && block == made.reserve();
            if keep {
                made.set_entry(block, [(0, 1), (now, 9)][self.random.below(2)]);
            } else if made.free(block, now) || block == made.reserve() {
                made.set_entry(block, [(3, 8), (now.saturating_add(4), 9)][self.random.below(2)]);
            }
        }
    }
}
