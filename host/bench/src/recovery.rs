//! Recoveries per second through the C interface, as a ratio to the host's, in one process and interleaved. Above 1.00 the archive is
//! faster. And what a log block costs in a long log as a ratio to that in a short one: the walk is to be linear in the log. Beside
//! each ratio stands the limit that was set for it.
//!
//! The boxes are of 16 groups and of 64, and their logs a version store's, all of whose log blocks are full. A walk is as of the time of the last
//! put, at that time, so that it takes every record; nothing is reset, and what is timed is the calls alone.
use crate::commands::Tags;
use crate::median;
use sockjade_host::controller::{self, Command, Memory, PRESENT, SYNC};
use sockjade_host::{archive, recovery, versions};
use std::hint::black_box;
use std::time::Instant;

const ROUNDS: usize = 2001;
const START: u32 = 1000;
const SHORT: usize = 10;
const LOG_RECORDS: usize = 63;
const RESULT: usize = 1024;

type Recover = fn(&[u8], &[u8], u32, u32, &mut [u8]) -> u32;

const PLACES: usize = 4096;

/// A box, the time at which it is walked, and room for results.
struct Timed {
    name: &'static str,
    memory: Vec<u8>,
    disk: Vec<u8>,
    now: u32,
    /// The log blocks.
    log: usize,
    /// How many walks are timed at once.
    calls: usize,
    room: Vec<u8>,
}

impl Timed {
    /// A store with this lock puts so many parts by turns, a second after the other, up to so many log blocks or until the box is full.
    fn new(name: &'static str, groups: u32, lock: u32, parts: u32, most: usize) -> Timed {
        let (mut state, mut memory) = (vec![0; 1536], vec![0; Memory::<PRESENT>::SIZE]);
        let mut disk = vec![0x5A; 33_280 * groups as usize];
        assert_eq!(controller::format::<PRESENT>(&mut memory, &mut disk, groups, &[7; 32]), 0);
        assert_eq!(versions::start(&mut state, lock), 0);
        let mut puts = 0;
        while puts < most * LOG_RECORDS {
            let (part, now) = (puts as u32 % parts, START + puts as u32);
            if versions::put::<PRESENT, Tags>(&mut state, &mut memory, &mut disk, part, now, &[0xA5; 512]).is_err() {
                break;
            }
            puts += 1;
        }
        let now = START + puts as u32;
        let sync = Command { kind: SYNC, block: 0, now, value: 0, data: &[], proof: &[] };
        assert_eq!(controller::command::<PRESENT, Tags>(&mut memory, &mut disk, &sync, &mut [0; 544]), 0);
        let log = puts / LOG_RECORDS;
        Timed { name, memory, disk, now, log, calls: 640_usize.div_ceil(log), room: vec![0; PLACES + RESULT] }
    }

    /// Nanoseconds for one walk. The result lies at each multiple of 16 of a page of the machine by turns.
    fn walked(&mut self, round: usize, recover: Recover) -> f64 {
        let result = &mut self.room[round * 336 % PLACES..][..RESULT];
        let mut refused = 0;
        let began = Instant::now();
        for _ in 0..self.calls {
            refused |= recover(black_box(&self.memory), black_box(&self.disk), self.now, self.now, result);
            black_box(&result);
        }
        let passed = began.elapsed().as_nanos() as f64;
        assert_eq!(refused, 0);
        passed / self.calls as f64
    }
}

pub fn run() {
    let longest = usize::MAX / LOG_RECORDS;
    let mut boxes = [
        Timed::new("16 groups, short", 16, 500_000, 200, SHORT),
        Timed::new("16 groups, the longest that there can be", 16, 1, 8, longest),
        Timed::new("64 groups, short", 64, 500_000, 200, SHORT),
        Timed::new("64 groups, the longest that there can be", 64, 1, 8, longest),
    ];
    let [mut to_host, mut to_short] = [(); 2].map(|()| [const { Vec::new() }; 4]);
    for round in 0..ROUNDS {
        let ours = boxes.each_mut().map(|timed| timed.walked(round, archive::recover));
        let short = ours[0] / boxes[0].log as f64;
        for (place, timed) in boxes.iter_mut().enumerate() {
            to_host[place].push(timed.walked(round, recovery::recover::<PRESENT>) / ours[place]);
            to_short[place].push(ours[place] / timed.log as f64 / short);
        }
    }
    println!("| log | its blocks | / host's walk | at least | time for a log block / in the first |\n|---|---|---|---|---|");
    for (place, timed) in boxes.iter().enumerate() {
        let [host, short] = [&mut to_host[place], &mut to_short[place]].map(|values| median(values));
        println!("| {} | {} | {host:.2} | 0.9 | {short:.2} |", timed.name, timed.log);
    }
}
