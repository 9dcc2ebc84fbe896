//! A box of two groups and a command to it that passes, or one to which chosen questions say no.
use super::call::{put_number, Call, GROUP, MEMORY, UNKNOWN};
use super::places::PRESENT;

/// The block that the commands name, in group 1, and the group for kind 3.
const BLOCK: u32 = 70;
const LAST_TIME: u32 = 1000;
pub const NOW: u32 = 1200;
const HIGHEST_COUNT: u32 = u32::MAX - 1;
/// The updates to a held page: with one more it leaves.
const UPDATES: u8 = 63;

/// Which group's page the box holds: none, another than the command's, or the command's.
pub const HELD: [u8; 3] = [255, 0, 1];

pub struct Situation {
    pub memory: Vec<u8>,
    pub disk: Vec<u8>,
    pub call: Call,
}

/// A set of questions, a bit for each.
#[derive(Clone, Copy)]
pub struct Questions(pub u32);

impl Questions {
    pub const NONE: Questions = Questions(0);

    pub fn has(self, number: u32) -> bool {
        self.0 >> number & 1 == 1
    }

    /// The number that is answered where these say no.
    pub fn first(self) -> u32 {
        if self.0 == 0 { 0 } else { self.0.trailing_zeros() }
    }
}

/// The questions that document 01 puts to a kind.
pub fn put_to(kind: u32) -> Vec<u32> {
    match kind {
        1..=3 => vec![1, 2, 3, 4, 5, 6],
        4..=6 => (1..=10).collect(),
        9 => vec![1, 2, 3, 4, 6, 11],
        _ => vec![1, 2, 3, 4, 6],
    }
}

/// The command's entry: word and stamp.
fn entry(kind: u32, no: Questions) -> (u32, u32) {
    match (kind, no.has(9), no.has(10)) {
        (4, false, _) => (NOW, 1),
        (4, true, _) => (NOW + 1, 1),
        (5, false, false) => (500, 2000),
        (5, false, true) => (u32::MAX - NOW, 2000),
        (5, true, false) => (NOW + 1, 2001),
        (5, true, true) => (u32::MAX, 2001),
        (_, false, _) => (500, 2000),
        (_, true, _) => (NOW, 2001),
    }
}

/// The command `kind` to which the questions `no`, of those put to it, say no. Where one has
/// several ways to fail, `turn` chooses.
pub fn situation(kind: u32, held: u8, no: Questions, turn: usize) -> Situation {
    let (memory, disk) = box_of(kind, held, no);
    let value = match kind {
        4 if no.has(10) => 2_147_483_648,
        6 if no.has(10) => u32::MAX,
        _ => 300,
    };
    let mut call = Call::good(kind, BLOCK, NOW, value, &memory, &disk);
    if kind == 3 {
        call.block = 1;
    }
    let mut made = Situation { memory, disk, call };
    spoil_late(&mut made, no, turn);
    spoil_early(&mut made, no, turn);
    made
}

/// Every byte of the disk and of a held page is something, and the command's entry what it is to be.
fn box_of(kind: u32, held: u8, no: Questions) -> (Vec<u8>, Vec<u8>) {
    let mut memory = vec![0; MEMORY];
    let mut disk: Vec<u8> = (0..2 * GROUP).map(|i| (i % 253) as u8).collect();
    (0..32).for_each(|i| memory[i] = i as u8 + 1);
    put_number(&mut memory, 32, 5);
    put_number(&mut memory, 36, if no.has(8) { HIGHEST_COUNT } else { 7 });
    put_number(&mut memory, PRESENT.last_time, LAST_TIME);
    memory[PRESENT.groups] = 2;
    memory[PRESENT.held] = held;
    if held != 255 {
        memory[PRESENT.updates] = UPDATES;
        memory[PRESENT.page..].copy_from_slice(&[0xE1; 512]);
    }
    let page = if held == 1 { &mut memory[PRESENT.page..] } else { &mut disk[129 * 512..] };
    let (word, stamp) = entry(kind, no);
    put_number(page, 8 * (BLOCK as usize % 64), word);
    put_number(page, 8 * (BLOCK as usize % 64) + 4, stamp);
    (memory, disk)
}

/// Lets questions 5, 6, 7 and 11 say no.
fn spoil_late(made: &mut Situation, no: Questions, turn: usize) {
    let call = &mut made.call;
    if no.has(11) {
        call.data.copy_from_slice(&made.memory[..32]);
    }
    if no.has(7) {
        call.proof[turn % 544] ^= 1 << (turn % 8);
    }
    if no.has(6) {
        match turn % 3 {
            0 => call.data.push(0),
            1 => call.proof.push(0),
            _ => call.answer_len += 1,
        }
    }
    if no.has(5) {
        call.block = [128, u32::MAX][turn % 2];
    }
}

/// Lets questions 1 to 4 say no.
fn spoil_early(made: &mut Situation, no: Questions, turn: usize) {
    let call = &mut made.call;
    if no.has(4) {
        call.now = [LAST_TIME - 1, 2_147_483_648, u32::MAX][turn % 3];
    }
    if no.has(3) {
        call.kind = UNKNOWN[turn % UNKNOWN.len()];
    }
    if no.has(2) {
        call.disk_len = Some([made.disk.len() - 1, made.disk.len() + 1][turn % 2]);
    }
    if no.has(1) {
        // More updates than a held page can have, some where none is held; or the byte behind them.
        made.memory[PRESENT.updates + turn % 2] += 1;
    }
}
