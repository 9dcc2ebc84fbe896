//! Puts per second through the C interface, in one process and interleaved: as a ratio to the host's version store, to the
//! commands of a put with pages and tags at hand, and in a box that is nearly full to one in an empty box. Beside each ratio
//! stands the limit that was set for it.
//!
//! Every put timed is an accepted one that replaces a version, in a box of 16 groups or of 64. Its box is put back after each round
//! to what it was, outside of what is timed, which is the calls alone.
use crate::commands::Tags;
use crate::median;
use sockjade_host::controller::{Memory, PAGE, PRESENT, SYNC, UNFREEZE, WRITE};
use sockjade_host::{archive, controller, versions};
use std::hint::black_box;
use std::time::Instant;

const ROUNDS: usize = 2001;
const PARTS: u32 = 8;
const LOCK: u32 = 500;
/// The puts of a log, the last of which stores it.
const LOG: usize = 63;
const START: u32 = 1000;
const CONTENT: [u8; 512] = [0xA5; 512];

#[derive(Clone)]
struct Store {
    state: Vec<u8>,
    memory: Vec<u8>,
    disk: Vec<u8>,
}

type Put = fn(&mut Store, u32, u32) -> u64;

fn ours(s: &mut Store, part: u32, now: u32) -> u64 {
    archive::versions_put(&mut s.state, &mut s.memory, &mut s.disk, part, now, black_box(&CONTENT))
}

fn host(s: &mut Store, part: u32, now: u32) -> u64 {
    let put = versions::put::<PRESENT, Tags>(&mut s.state, &mut s.memory, &mut s.disk, part, now, black_box(&CONTENT));
    archive::outcome(put.map_err(|refusal| refusal.number))
}

impl Store {
    /// An empty box, but for a version of each part in the blocks from 1 on, and a log that was just begun.
    fn new(groups: usize) -> Store {
        let memory = vec![0; Memory::<PRESENT>::SIZE];
        let mut made = Store { state: vec![0; 1536], memory, disk: vec![0x5A; 33_280 * groups] };
        assert_eq!(controller::format::<PRESENT>(&mut made.memory, &mut made.disk, groups as u32, &[7; 32]), 0);
        assert_eq!(versions::start(&mut made.state, LOCK), 0);
        for part in 0..PARTS {
            assert_eq!(host(&mut made, part, START) as u32, 0);
        }
        assert_eq!(versions::flush::<PRESENT, Tags>(&mut made.state, &mut made.memory, &mut made.disk, START), Ok(()));
        made.command(SYNC, 0, &[], &[]);
        made
    }

    /// The same, and every other block is frozen but the reserve and the two behind it, which are the last that a search
    /// comes to: the one last taken is the next.
    fn nearly_full(groups: usize) -> Store {
        let mut made = Store::new(groups);
        let reserve = PARTS + 1;
        assert_eq!(made.state[4..8], reserve.to_le_bytes());
        made.state[8..12].copy_from_slice(&(reserve + 3).to_le_bytes());
        for block in reserve + 3..64 * groups as u32 {
            let (_, proof) = made.command(PAGE, block / 64, &[], &[]);
            made.command(WRITE, block, &CONTENT, &proof);
        }
        made.command(SYNC, 0, &[], &[]);
        made
    }

    /// Nanoseconds for an accepted command of the archive, and its answer.
    fn command(&mut self, kind: u32, block: u32, data: &[u8], proof: &[u8]) -> (f64, [u8; 544]) {
        let now = Memory::<PRESENT>::of(&self.memory).expect("a memory of its size").last_time();
        let mut answer = [0; 544];
        let began = Instant::now();
        let number = archive::command(&mut self.memory, &mut self.disk, kind, block, now, LOCK, data, proof, &mut answer);
        let passed = began.elapsed().as_nanos() as f64;
        assert_eq!(number, 0, "kind {kind}, block {block}");
        (passed, answer)
    }

    /// Nanoseconds for one put, and its block.
    fn put(&mut self, put: Put, turn: usize) -> (f64, u32) {
        let began = Instant::now();
        let answered = put(self, turn as u32 % PARTS, START + turn as u32);
        let passed = began.elapsed().as_nanos() as f64;
        assert_eq!(answered as u32, 0, "put {turn}");
        (passed, (answered >> 32) as u32)
    }

    /// Nanoseconds for a put's write and unfreeze, each with its page and tag at hand.
    fn bare(&mut self, block: u32, replaced: u32) -> f64 {
        let (_, proof) = self.command(PAGE, block / 64, &[], &[]);
        let (write, _) = self.command(WRITE, block, black_box(&CONTENT), &proof);
        let (_, proof) = self.command(PAGE, replaced / 64, &[], &[]);
        let (unfreeze, _) = self.command(UNFREEZE, replaced, &[], &proof);
        write + unfreeze
    }

    /// Becomes what it was: the state, the memory, and of the disk the pages and the data blocks that were stored.
    fn put_back(&mut self, before: &Store, stored: impl Iterator<Item = u32>) {
        self.state.copy_from_slice(&before.state);
        self.memory.copy_from_slice(&before.memory);
        let pages = (0..self.disk.len() / 33_280).map(|group| 65 * group + 64);
        for physical in pages.chain(stored.map(|block| (block + block / 64) as usize)) {
            let place = 512 * physical..512 * (physical + 1);
            self.disk[place.clone()].copy_from_slice(&before.disk[place]);
        }
    }
}

pub fn run() {
    rates();
    println!();
    println!("| put, / in an empty box | time | at most |\n|---|---|---|");
    costs(16, "3.0");
    costs(64, "");
}

/// Nanoseconds of one round: the puts of a log by the archive and by the host, and their bare commands.
struct Round {
    ours: Vec<f64>,
    host: Vec<f64>,
    bare: Vec<f64>,
}

/// A whole log in each of three boxes, which are alike before and after.
fn round(start: &Store, [by_ours, by_host, bare]: &mut [Store; 3]) -> Round {
    let mut newest: Vec<u32> = (1..=PARTS).collect();
    let mut stored = vec![PARTS + 1];
    let mut round = Round { ours: Vec::new(), host: Vec::new(), bare: Vec::new() };
    for turn in 0..LOG {
        let (nanos, block) = by_ours.put(ours, turn);
        round.ours.push(nanos);
        round.host.push(by_host.put(host, turn).0);
        let replaced = std::mem::replace(&mut newest[turn % PARTS as usize], block);
        round.bare.push(bare.bare(block, replaced));
        stored.push(block);
    }
    for store in [by_ours, by_host, bare] {
        store.put_back(start, stored.iter().copied());
    }
    round
}

/// Of a log's puts all but the last store no log block.
fn rates() {
    let start = Store::new(16);
    let mut boxes = [(); 3].map(|()| start.clone());
    let (mut to_host, mut to_host_log, mut to_bare) = (Vec::new(), Vec::new(), Vec::new());
    for _ in 0..ROUNDS {
        let Round { ours, host, bare } = round(&start, &mut boxes);
        let [first_ours, first_host, first_bare] = [&ours, &host, &bare].map(|all| all[..LOG - 1].iter().sum::<f64>());
        to_host.push(first_host / first_ours);
        to_host_log.push(host.iter().sum::<f64>() / ours.iter().sum::<f64>());
        to_bare.push(first_ours / first_bare);
    }
    let [host, host_log, bare] = [&mut to_host, &mut to_host_log, &mut to_bare].map(|v| median(v));
    println!("| put that replaces a version | / host's put | at least | time / its commands' | at most |\n|---|---|---|---|---|");
    println!("| no log block due | {host:.2} | 0.9 | {bare:.2} | 1.7 |");
    println!("| over the {LOG} puts of a log block | {host_log:.2} | 0.9 | | |");
}

/// One put in each box in a round, of so many groups.
fn costs(groups: usize, limit: &str) {
    let starts = [Store::new(groups), Store::nearly_full(groups)];
    let mut boxes = starts.clone();
    let mut measured: Vec<f64> = Vec::new();
    for _ in 0..ROUNDS {
        let [empty, full] = [0, 1].map(|place| {
            let (nanos, block) = boxes[place].put(ours, 0);
            boxes[place].put_back(&starts[place], [block].into_iter());
            nanos
        });
        measured.push(full / empty);
    }
    println!("| {groups} groups, two blocks free, the last ones looked at | {:.2} | {limit} |", median(&mut measured));
}
