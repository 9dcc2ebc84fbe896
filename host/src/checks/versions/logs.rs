//! A store that is alone on its box, through several logs: the newest version of every part reads back after each put, and
//! the log, walked from block 0, has a record of every put, in order.
use super::super::call::{number, GROUP};
use super::super::Checked;
use super::stores::{Put, Stores, Told};
use super::BLOCK;
use crate::random::Random;
use std::collections::BTreeMap;

pub fn check(stores: &mut Stores, seed: u64) -> Checked {
    let before = stores.pair.index;
    let mut logs = 0;
    for (groups, lock, puts) in [(1, 3, 300), (1, 1, 700), (2, 20, 500), (16, 60, 400), (16, 400, 700), (64, 60, 130)] {
        stores.load_started(groups, lock)?;
        logs += Alone::new(stores, Random::new(seed + groups as u64)).run(puts)?;
    }
    Ok(format!("stores alone: {} calls, {logs} logs", stores.pair.index - before))
}

struct Alone<'a> {
    stores: &'a mut Stores,
    random: Random,
    now: u32,
    /// Each part's newest content.
    contents: BTreeMap<u32, Vec<u8>>,
    /// Part and block of every put.
    records: Vec<(u32, u32)>,
}

impl<'a> Alone<'a> {
    fn new(stores: &'a mut Stores, random: Random) -> Alone<'a> {
        Alone { stores, random, now: 1, contents: BTreeMap::new(), records: Vec::new() }
    }

    /// So many puts to as many parts as the box has room for; says how many log blocks there are in the end.
    fn run(&mut self, puts: usize) -> Result<usize, String> {
        let parts = (self.stores.now().blocks() / 8).min(256) as usize;
        for _ in 0..puts {
            self.now += self.random.below(4) as u32;
            self.put(parts)?;
            match self.random.below(30) {
                0 => self.stores.expect_command(7, 0, self.now, 0)?,
                1 => self.new_salt()?,
                2 if self.random.below(6) == 0 => self.stores.expect_flush(self.now, Told::default(), 0)?,
                _ => {}
            }
        }
        self.reads_back()?;
        self.stores.expect_flush(self.now, Told::default(), 0)?;
        self.walk()
    }

    fn put(&mut self, parts: usize) -> Result<(), String> {
        let mut put = Put::new(self.random.below(parts) as u32, self.now);
        self.random.fill(&mut put.content);
        match self.stores.put(&put)? {
            Ok(block) => {
                self.records.push((put.part, block));
                self.contents.insert(put.part, put.content);
                if self.random.below(8) == 0 {
                    self.reads_back()?;
                }
                Ok(())
            }
            // Full for the moment: the locks pass.
            Err(refusal) if refusal.number == 14 => {
                self.now += 20;
                Ok(())
            }
            Err(refusal) => Err(format!("a store alone on its box was refused: {refusal:?}")),
        }
    }

    /// The salt is of the time's low byte, and is refused where the last one was the same.
    fn new_salt(&mut self) -> Result<(), String> {
        self.stores.command(9, 0, self.now, 0).map(|_| ())
    }

    /// The newest version of every part is at the block answered, by kind 1.
    fn reads_back(&mut self) -> Result<(), String> {
        let Alone { stores, contents, now, .. } = self;
        for (part, content) in contents {
            let block = stores.block(*part, None)?.map_err(|number| format!("block of part {part}: {number}"))?;
            stores.expect_command(1, block, *now, 0)?;
            if stores.pair.answer()[..BLOCK] != content[..] {
                return Err(format!("part {part} does not read back from block {block}"));
            }
        }
        Ok(())
    }

    /// The log from block 0 to the reserve has all records; says how many blocks that were.
    fn walk(&self) -> Result<usize, String> {
        let now = self.stores.now();
        let (mut at, mut found, mut logs) = (0, Vec::new(), 0);
        while at != now.reserve() {
            let log = &now.disk[GROUP * (at as usize / 64) + BLOCK * (at as usize % 64)..][..BLOCK];
            let used = log[..504].chunks_exact(8).take_while(|record| **record != [0xFF; 8]);
            found.extend(used.map(|record| (number(record, 0), number(record, 4))));
            at = number(log, 504);
            logs += 1;
        }
        if found == self.records {
            return Ok(logs);
        }
        Err(format!("the log has {} records, and there were {} puts", found.len(), self.records.len()))
    }
}
