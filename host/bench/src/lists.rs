//! Lists per second through the C interface, in one process and interleaved: as a ratio to as many
//! commands of kind 2 from the archive, and to the host's own list. Above 1.00 the archive's list is
//! faster. And a list's cost in a box of 64 groups as a ratio to that in a smaller one. Beside each
//! ratio stands the limit that was set for it.
//!
//! All are accepted, at one time, so that nothing is reset; the blocks are in all three states. What
//! is timed is the calls alone.
use crate::median;
use sockjade_host::checks::lists::{box_of, List, NONE, NOW};
use sockjade_host::controller::PRESENT;
use sockjade_host::{archive, controller};
use std::hint::black_box;
use std::time::Instant;

const ROUNDS: usize = 2001;
/// The group of the lists in one group, which is held where a page is.
const GROUP: u32 = 5;

type States = fn(&mut [u8], &[u8], &[u8], u32, &mut [u8]) -> u64;

fn host(memory: &mut [u8], disk: &[u8], blocks: &[u8], now: u32, answer: &mut [u8]) -> u64 {
    archive::outcome(controller::states::<PRESENT>(memory, disk, blocks, now, answer))
}

const PLACES: usize = 4096;

/// Where an answer lies in a round: at each multiple of 16 of a page of the machine by turns, since the
/// time of a call hangs on it.
fn place(round: usize) -> usize {
    round * 336 % PLACES
}

/// A list with the box that it is sent to, and room for answers.
struct Timed {
    memory: Vec<u8>,
    disk: Vec<u8>,
    list: List,
    room: Vec<u8>,
}

impl Timed {
    fn new(groups: usize, held: u8, numbers: &[u32]) -> Timed {
        let (memory, disk) = box_of(groups, held);
        Timed { memory, disk, list: List::new(numbers, NOW), room: vec![0; PLACES + 576] }
    }

    /// How many lists are timed at once.
    fn calls(&self) -> usize {
        512 / self.list.answer_len.div_ceil(64)
    }

    /// Nanoseconds for one list.
    fn listed(&mut self, round: usize, states: States) -> f64 {
        let calls = self.calls();
        let answer = &mut self.room[place(round)..][..self.list.answer_len];
        let mut refused = 0;
        let began = Instant::now();
        for _ in 0..calls {
            let blocks = black_box(&self.list.blocks);
            refused |= states(&mut self.memory, &self.disk, blocks, NOW, answer) as u32;
            black_box(&answer);
        }
        let passed = began.elapsed().as_nanos() as f64;
        assert_eq!(refused, 0);
        passed / calls as f64
    }

    /// Nanoseconds for a command of kind 2 to each of the list's blocks.
    fn entries(&mut self, round: usize) -> f64 {
        let numbers: Vec<u32> = self.list.numbers().collect();
        let calls = self.calls() / 8;
        let answer = &mut self.room[place(round)..][..544];
        let mut refused = 0;
        let began = Instant::now();
        for block in (0..calls).flat_map(|_| &numbers) {
            let (memory, disk, block) = (&mut self.memory, &mut self.disk, black_box(*block));
            refused |= archive::command(memory, disk, controller::ENTRY, block, NOW, 0, &[], &[], answer);
            black_box(&answer);
        }
        let passed = began.elapsed().as_nanos() as f64;
        assert_eq!(refused, 0);
        passed / calls as f64
    }
}

/// The blocks of one group, mixed.
fn one_group(group: u32) -> Vec<u32> {
    (0..64).map(|i| 64 * group + i * 37 % 64).collect()
}

/// As many blocks of each of these groups; neighbours in the list are in different ones.
fn of_groups(groups: u32) -> Vec<u32> {
    (0..64).map(|i| 64 * (i * 7 % groups) + i).collect()
}

pub fn run() {
    rates();
    println!();
    costs();
}

/// The archive's list against its entries, and against the host's list.
fn rates() {
    println!("| list | / as many entries | at least | / host's list | at least |\n|---|---|---|---|---|");
    let lists = [
        ("64 of one group, in 16", 16, one_group(GROUP), "4.0"),
        ("64 of sixteen groups, in 16", 16, of_groups(16), "1.3"),
        ("64 of as many groups", 64, of_groups(64), ""),
        ("one, in 16 groups", 16, vec![64 * GROUP + 9], ""),
    ];
    for (name, groups, numbers, limit) in lists {
        for (held, page) in [(GROUP as u8, "a page held"), (NONE, "none held")] {
            let mut timed = Timed::new(groups, held, &numbers);
            let (mut to_entries, mut to_host) = (Vec::new(), Vec::new());
            for round in 0..ROUNDS {
                let nanos = timed.listed(round, archive::states);
                to_host.push(timed.listed(round, host) / nanos);
                to_entries.push(timed.entries(round) / nanos);
            }
            let [entries, host] = [&mut to_entries, &mut to_host].map(|values| median(values));
            println!("| {name}, {page} | {entries:.2} | {limit} | {host:.2} | 0.9 |");
        }
    }
}

/// What a list costs in a box of 64 groups, against a smaller one that has its groups.
fn costs() {
    println!("| list | cost at 64 groups | at most |\n|---|---|---|");
    for (name, fewest, numbers) in [
        ("64 of group 0, / at 1 group", 1, one_group(0)),
        ("one of group 0, / at 1 group", 1, vec![9]),
        ("64 of sixteen groups, / at 16 groups", 16, of_groups(16)),
    ] {
        for (held, page) in [(0, "its page held"), (NONE, "none held")] {
            let [mut small, mut large] = [fewest, 64].map(|groups| Timed::new(groups, held, &numbers));
            let cost = |round| large.listed(round, archive::states) / small.listed(round, archive::states);
            let mut costs: Vec<f64> = (0..ROUNDS).map(cost).collect();
            println!("| {name}, {page} | {:.2} | 1.1 |", median(&mut costs));
        }
    }
}
