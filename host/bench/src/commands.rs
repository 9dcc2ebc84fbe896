//! Commands per second through the C interface, as a ratio to the host's controller, in one process
//! and interleaved. Above 1.00 the archive is faster. And a command's cost in a box of 64 groups as
//! a ratio to that in a box of one, with the limit that was set for it.
//!
//! Every command timed is an accepted one to a block of the box's last group. A round writes the 64
//! blocks in turn with lock 0, grows their locks by 0, and unfreezes them, after which they are free
//! again: so nothing is reset, and each update brings what the one before answered, in two buffers
//! that change places. The page leaves by itself with the last of each 64, whose mean so includes it;
//! the second table has what that adds. It is held again while the other kinds are timed; those that
//! let it go are sent to copies of the memory, one each. What is timed is the calls alone, each as who
//! uses that controller makes it: the archive gets its arguments one by one, the host's controller a
//! command at which it looks.
use crate::{aligned_disk, median};
#[cfg(official)]
use crate::official;
use sockjade_host::controller::{self, Command, Digest, Memory, Message, PRESENT};
use sockjade_host::archive;
use std::hint::black_box;
use std::ops::Range;
use std::time::Instant;

const ROUNDS: usize = 2001;
const NOW: u32 = 1000;

/// The updates to a page until it leaves.
const UPDATES: u32 = 64;

/// Kinds in the order in which a round can send them, with the calls of one slice.
const KINDS: [(u32, &str, u32); 10] = [
    (controller::WRITE, "write", UPDATES),
    (controller::INCREMENT, "increment", UPDATES),
    (controller::UNFREEZE, "unfreeze", UPDATES),
    (controller::READ, "read", 512),
    (controller::ENTRY, "entry", 512),
    (controller::PAGE, "page", 64),
    (controller::IDENTIFY, "identify", 512),
    (controller::SYNC, "sync", COPIES),
    (controller::RESTART, "restart", COPIES),
    (controller::NEW_SALT, "new salt", COPIES),
];
/// How many of them are updates.
const UPDATING: usize = 3;
/// The memories of a slice of a kind that lets the page go.
const COPIES: u32 = 64;

/// A controller, as it is called in the loop that is timed.
trait Controller {
    fn command(memory: &mut [u8], disk: &mut [u8], c: Command, answer: &mut [u8]) -> u32;
}

struct Archive;

impl Controller for Archive {
    #[inline(always)]
    fn command(memory: &mut [u8], disk: &mut [u8], c: Command, answer: &mut [u8]) -> u32 {
        archive::command(memory, disk, c.kind, c.block, c.now, c.value, c.data, c.proof, answer)
    }
}

struct Host;

impl Controller for Host {
    #[inline(always)]
    fn command(memory: &mut [u8], disk: &mut [u8], c: Command, answer: &mut [u8]) -> u32 {
        by_host(memory, disk, &c, answer)
    }
}

/// Apart from the loop, as the archive is.
#[inline(never)]
fn by_host(memory: &mut [u8], disk: &mut [u8], c: &Command, answer: &mut [u8]) -> u32 {
    controller::command::<PRESENT, Tags>(memory, disk, c, answer)
}

/// What the host's controller makes tags with: the official portable code where it is installed.
pub struct Tags;

const TAGS: &str = if cfg!(official) { "official portable BLAKE3" } else { "its own BLAKE3" };

impl Digest for Tags {
    #[cfg(official)]
    fn digest(message: &Message) -> [u8; 32] {
        let mut out = [0; 32];
        official::portable(message, &mut out);
        out
    }

    #[cfg(not(official))]
    fn digest(message: &Message) -> [u8; 32] {
        sockjade_host::blake3::digest(message)
    }
}

/// Nanoseconds for these calls of a kind.
type Total = fn(&mut Timed, u32, Range<u32>) -> f64;

/// A box with the controller that it is sent to.
struct Timed {
    total: Total,
    memory: Vec<u8>,
    copies: Vec<Vec<u8>>,
    disk: &'static mut [u8],
    group: u32,
    /// The current page of the group and its tag.
    current: Vec<u8>,
    answer: Vec<u8>,
}

impl Timed {
    fn new(total: Total, groups: u32) -> Timed {
        let mut memory = vec![0; Memory::<PRESENT>::SIZE];
        let disk = aligned_disk(groups as usize);
        assert_eq!(controller::format::<PRESENT>(&mut memory, disk, groups, &[7; 32]), 0);
        let (current, answer) = (vec![0; 544], vec![0; 544]);
        let copies = vec![memory.clone(); COPIES as usize];
        let mut made = Timed { total, memory, copies, disk, group: groups - 1, current, answer };
        made.slice(controller::PAGE, 1);
        std::mem::swap(&mut made.current, &mut made.answer);
        made
    }

    /// Nanoseconds for one command, over so many calls.
    fn slice(&mut self, kind: u32, calls: u32) -> f64 {
        (self.total)(self, kind, 0..calls) / calls as f64
    }

    /// No page is held, as at the start of a round: the box becomes the copy that was synced.
    fn sync(&mut self) {
        self.slice(controller::SYNC, 1);
        self.memory.copy_from_slice(&self.copies[0]);
    }

    /// The group's page is held, and every block free.
    fn hold(&mut self) {
        self.slice(controller::WRITE, 1);
        self.slice(controller::UNFREEZE, 1);
    }

    /// Nanoseconds for the updates with which the page does not leave, of them the last one by itself, and for the one with
    /// which it does.
    fn leaving(&mut self, kind: u32) -> [f64; 3] {
        let (one, last) = (UPDATES - 2, UPDATES - 1);
        let times = [0..one, one..last, last..UPDATES].map(|calls| (self.total)(self, kind, calls));
        let memory = Memory::<PRESENT>::of(&self.memory).expect("a memory of its size");
        assert_eq!(memory.held(), None, "the page has not left");
        times
    }
}

fn total<C: Controller>(timed: &mut Timed, kind: u32, calls: Range<u32>) -> f64 {
    match kind {
        controller::SYNC | controller::RESTART | controller::NEW_SALT => total_of_copies::<C>(timed, kind, calls.len()),
        _ => total_of_one::<C>(timed, kind, calls),
    }
}

/// Nanoseconds for as many calls, each to a copy of the memory.
fn total_of_copies<C: Controller>(timed: &mut Timed, kind: u32, calls: usize) -> f64 {
    let Timed { memory, copies, disk, answer, .. } = timed;
    copies.iter_mut().for_each(|copy| copy.copy_from_slice(memory));
    let data: &[u8] = if kind == controller::NEW_SALT { &[9; 32] } else { &[] };
    let (kind, now, data) = (black_box(kind), black_box(NOW), black_box(data));
    let mut refused = 0;
    let began = Instant::now();
    for copy in &mut copies[..calls] {
        let command = Command { kind, block: 0, now, value: 0, data, proof: &[] };
        refused |= C::command(copy, disk, command, answer);
        black_box(&answer);
    }
    let passed = began.elapsed().as_nanos() as f64;
    assert_eq!(refused, 0, "kind {kind}");
    passed
}

/// Nanoseconds for these calls, each to the next block of the group.
fn total_of_one<C: Controller>(timed: &mut Timed, kind: u32, calls: Range<u32>) -> f64 {
    let update = (controller::WRITE..=controller::INCREMENT).contains(&kind);
    let data: &[u8] = if kind == controller::WRITE { &[0xA5; 512] } else { &[] };
    let (kind, now, value, data) = (black_box(kind), black_box(NOW), black_box(0), black_box(data));
    let mut refused = 0;
    let began = Instant::now();
    for call in calls {
        let block = if kind == controller::PAGE { timed.group } else { 64 * timed.group + call % 64 };
        let proof: &[u8] = if update { &timed.current } else { &[] };
        let command = Command { kind, block, now, value, data, proof };
        refused |= C::command(&mut timed.memory, timed.disk, command, &mut timed.answer);
        black_box(&timed.answer);
        if update {
            std::mem::swap(&mut timed.current, &mut timed.answer);
        }
    }
    let passed = began.elapsed().as_nanos() as f64;
    assert_eq!(refused, 0, "kind {kind}");
    passed
}

#[derive(Default)]
struct Measured {
    to_host: Vec<f64>,
    to_one_group: Vec<f64>,
}

pub fn run() {
    rates();
    println!();
    leaving();
}

fn rates() {
    let mut boxes = [Timed::new(total::<Archive>, 1), Timed::new(total::<Host>, 1), Timed::new(total::<Archive>, 64)];
    let mut measured: [Measured; KINDS.len()] = Default::default();
    for _ in 0..ROUNDS {
        boxes.iter_mut().for_each(Timed::sync);
        for (place, ((kind, _, calls), m)) in KINDS.iter().zip(&mut measured).enumerate() {
            if place == UPDATING {
                boxes.iter_mut().for_each(Timed::hold);
            }
            let [one, host, most] = boxes.each_mut().map(|timed| timed.slice(*kind, *calls));
            m.to_host.push(host / one);
            m.to_one_group.push(most / one);
        }
    }
    println!("| command | / host with {TAGS} | cost at 64 groups / at 1 | at most |\n|---|---|---|---|");
    for ((_, name, _), m) in KINDS.iter().zip(&mut measured) {
        let (to_host, to_one) = (median(&mut m.to_host), median(&mut m.to_one_group));
        println!("| {name} | {to_host:.2} | {to_one:.2} | 1.1 |");
    }
}

/// What the page's leaving adds: the mean over 64 updates, with the last of which it leaves, against the host's, and as times of the
/// mean over the 63 before it; and the last as times of the one before it, each timed by itself.
fn leaving() {
    let mut boxes = [Timed::new(total::<Archive>, 1), Timed::new(total::<Host>, 1)];
    let mut measured: [[Vec<f64>; 3]; UPDATING] = Default::default();
    for _ in 0..ROUNDS {
        for ((kind, _, _), [to_host, to_before, last_to_one]) in KINDS.iter().zip(&mut measured) {
            let [ours, host] = boxes.each_mut().map(|timed| timed.leaving(*kind));
            let [all, hosts_all] = [ours, host].map(|times| times.iter().sum::<f64>());
            let [many, one, last] = ours;
            to_host.push(hosts_all / all);
            to_before.push(all / UPDATES as f64 / ((many + one) / (UPDATES - 1) as f64));
            last_to_one.push(last / one);
        }
    }
    println!("| {UPDATES} updates, the page leaving with the last | / host with {TAGS} | time / of those before it | the last / the one before it |");
    println!("|---|---|---|---|");
    for ((_, name, _), values) in KINDS.iter().zip(&mut measured) {
        let [to_host, to_before, last_to_one] = values.each_mut().map(|values| median(values));
        println!("| {name} | {to_host:.2} | {to_before:.3} | {last_to_one:.2} |");
    }
}
