//! The version store on the archive alone, with bytes that are written out here.
use super::super::alone::{same, Archive};
use super::super::Checked;
use crate::archive::{versions_block, versions_flush, versions_put, versions_start};

const F4_01: [u8; 4] = [0xF4, 0x01, 0, 0];

/// A box and the state of a store with a lock of 500.
pub struct Store {
    pub a: Archive,
    state: [u8; 1536],
}

impl Store {
    pub fn started(groups: u32) -> Result<Store, String> {
        let mut made = Store { a: Archive::formatted(groups)?, state: [0xAA; 1536] };
        answers("start", versions_start(&mut made.state, 500) as u64, 0)?;
        Ok(made)
    }

    /// A version of 512 times this byte is put into this block.
    pub fn puts(&mut self, part: u32, now: u32, byte: u8, block: u64) -> Result<(), String> {
        let Archive { memory, disk, .. } = &mut self.a;
        let got = versions_put(&mut self.state, memory, disk, part, now, &[byte; 512]);
        answers(&format!("the put of part {part} at {now}"), got, block << 32)
    }

    pub fn flushes(&mut self, now: u32) -> Result<(), String> {
        let Archive { memory, disk, .. } = &mut self.a;
        answers("flush", versions_flush(&mut self.state, memory, disk, now) as u64, 0)
    }

    /// Kind 1 answers these bytes.
    pub fn reads(&mut self, what: &str, block: u32, now: u32, bytes: &[u8]) -> Result<(), String> {
        self.a.gets(1, block, now, 0, 0)?;
        same(what, &self.a.answer[..512], bytes)
    }
}

pub fn check() -> Checked {
    start()?;
    three_puts()?;
    full_log()?;
    leaving()?;
    refusals()?;
    Ok("versions by hand".into())
}

pub fn answers(what: &str, got: u64, right: u64) -> Result<(), String> {
    if got == right {
        return Ok(());
    }
    Err(format!("by hand: {what} answered {got:016x} instead of {right:016x}"))
}

/// "block 0, the reserve at the start", and the block last taken; no part has a block.
fn start() -> Result<(), String> {
    let store = Store::started(1)?;
    let mut state = [0xFF; 1536];
    state[..16].copy_from_slice(&[0xF4, 0x01, 0, 0, 0, 0, 0, 0, 0, 0, 0, 0, 0, 0, 0, 0]);
    same("the state at the start", &store.state, &state)?;
    for part in 0..256 {
        answers("the block of a part without one", versions_block(&store.state, part), 0xFFFF_FFFF_0000_0000)?;
    }
    Ok(())
}

/// Part 7 is put, then 255, then 7 again; then the log is stored in block 0, and block 4 is the reserve. Block 1,
/// unfrozen at 1002, counts to 1503 and is not taken before the search comes round to it.
fn three_puts() -> Result<(), String> {
    let mut s = Store::started(1)?;
    s.puts(7, 1000, 0x11, 1)?;
    s.puts(255, 1001, 0x22, 2)?;
    s.puts(7, 1002, 0x33, 3)?;
    let mut state = [0xFF; 1536];
    state[..16].copy_from_slice(&[0xF4, 0x01, 0, 0, 0, 0, 0, 0, 3, 0, 0, 0, 3, 0, 0, 0]);
    state[44..48].copy_from_slice(&[3, 0, 0, 0]);
    state[1036..1040].copy_from_slice(&[2, 0, 0, 0]);
    let records = [7, 0, 0, 0, 1, 0, 0, 0, 255, 0, 0, 0, 2, 0, 0, 0, 7, 0, 0, 0, 3, 0, 0, 0];
    state[1040..1064].copy_from_slice(&records);
    same("the state after three puts", &s.state, &state)?;
    s.a.shows(1, 1002, [0xDF, 0x05, 0, 0, 0xD1, 0x07, 0, 0, 0xF5, 0x01, 0, 0, 0, 0, 0, 0, 2])?;
    s.a.shows(3, 1002, [0xF4, 0x01, 0, 0, 0xD4, 0x07, 0, 0, 0xF4, 0x01, 0, 0, 0, 0, 0, 0, 1])?;
    s.a.shows(0, 1002, [0, 0, 0, 0, 1, 0, 0, 0, 0x16, 0xFC, 0xFF, 0xFF, 0xFF, 0xFF, 0xFF, 0xFF, 0])?;
    same("count and time", &s.a.memory[32..36], &[4, 0, 0, 0])?;
    s.flushes(1003)?;
    let mut log = [0xFF; 512];
    log[..24].copy_from_slice(&records);
    log[504..].copy_from_slice(&[4, 0, 0, 0, 0, 0, 0, 0]);
    s.reads("the log block", 0, 1003, &log)?;
    s.a.shows(0, 1003, [0xF4, 0x01, 0, 0, 0xD6, 0x07, 0, 0, 0xF4, 0x01, 0, 0, 0, 0, 0, 0, 1])?;
    state[4..16].copy_from_slice(&[4, 0, 0, 0, 4, 0, 0, 0, 0, 0, 0, 0]);
    state[1040..].fill(0xFF);
    same("the state after a flush", &s.state, &state)?;
    answers("the block of part 7", versions_block(&s.state, 7), 3 << 32)?;
    s.puts(7, 1503, 0x44, 5)?;
    s.reads("the newest version of part 7", 5, 1503, &[0x44; 512])?;
    s.reads("the one of part 255", 2, 1503, &[0x22; 512])
}

/// Sixty-three puts of three parts by turns fill the log: the last one's record stands last in it, and the next
/// reserve is the first block of the other group.
fn full_log() -> Result<(), String> {
    let mut s = Store::started(2)?;
    for put in 1..=62 {
        s.puts(put % 3, 1000 + put, put as u8, put as u64)?;
    }
    same("62 records", &s.state[..16], &[F4_01, [0; 4], [62, 0, 0, 0], [62, 0, 0, 0]].concat())?;
    s.puts(63 % 3, 1063, 63, 63)?;
    let mut log = Vec::new();
    for put in 1..=63u8 {
        log.extend([put % 3, 0, 0, 0, put, 0, 0, 0]);
    }
    log.extend([64, 0, 0, 0, 0, 0, 0, 0]);
    s.reads("the full log block", 0, 1063, &log)?;
    same("the state after it", &s.state[..16], &[F4_01, [64, 0, 0, 0], [64, 0, 0, 0], [0; 4]].concat())?;
    let newest = [63, 0, 0, 0, 61, 0, 0, 0, 62, 0, 0, 0, 0xFF, 0xFF, 0xFF, 0xFF];
    same("the newest blocks", &s.state[16..32], &newest)?;
    same("no records", &s.state[1040..], &[0xFF; 496])?;
    // 63 versions, 60 unfreezes and the log block: after 64 of these 124 updates the page has left by itself.
    same("the counts", &s.a.memory[32..40], &[124, 0, 0, 0, 0, 0, 0, 0])?;
    same("G, held and updates", &s.a.memory[292..296], &[2, 0, 60, 0])?;
    s.puts(9, 1064, 99, 65)?;
    same("G, held and updates", &s.a.memory[292..296], &[2, 1, 1, 0])
}

/// Sixty-three puts of as many parts, and the log block with the last of them: the page leaves with it, and a restart loses nothing.
fn leaving() -> Result<(), String> {
    let mut s = Store::started(2)?;
    (1..=62).try_for_each(|put| s.puts(put, 1000, put as u8, put as u64))?;
    same("G, held and updates", &s.a.memory[292..296], &[2, 0, 62, 0])?;
    same("block 1's entry on the disk", &s.a.disk[64 * 512 + 8..][..8], &[0, 0, 0, 0, 1, 0, 0, 0])?;
    s.puts(63, 1000, 63, 63)?;
    same("G, held and updates", &s.a.memory[292..296], &[2, 255, 0, 0])?;
    same("the held page", &s.a.memory[296..], &[0; 512])?;
    same("the count", &s.a.memory[32..36], &[64, 0, 0, 0])?;
    let entry = [0xF4, 0x01, 0, 0, 0xD0, 0x07, 0, 0];
    same("the page on the disk", &s.a.disk[64 * 512..65 * 512], &entry.repeat(64))?;
    s.a.gets(8, 0, 1001, 0, 0)?;
    s.reads("the newest version of part 63", 63, 1001, &[63; 512])?;
    s.a.shows(63, 1001, [0xF4, 0x01, 0, 0, 0xD0, 0x07, 0, 0, 0xF4, 0x01, 0, 0, 0, 0, 0, 0, 1])
}

/// Each number once; after each of them the same put is still to come.
fn refusals() -> Result<(), String> {
    let mut s = Store::started(1)?;
    answers("lock 0", versions_start(&mut [0; 1536], 0) as u64, 10)?;
    answers("lock 2,147,483,648", versions_start(&mut [0; 1536], 2_147_483_648) as u64, 10)?;
    answers("room of 1,535 bytes", versions_start(&mut [0; 1535], 500) as u64, 1)?;
    answers("part 256, of no state", versions_block(&[], 256), 13)?;
    answers("no state", versions_block(&[], 255), 1)?;
    s.puts(1, 1000, 1, 1)?;
    let (state, memory, disk) = (s.state, s.a.memory, s.a.disk.clone());
    let Store { a: Archive { memory: m, disk: d, .. }, state: t } = &mut s;
    answers("part 256", versions_put(t, m, d, 256, 999, &[]), 13)?;
    answers("a state short of a byte", versions_put(&mut t[..1535], m, d, 255, 999, &[]), 1)?;
    answers("a memory short of a byte", versions_put(t, &mut m[..807], d, 255, 999, &[]), 1)?;
    answers("a disk short of a byte", versions_put(t, m, &mut d[..33_279], 255, 999, &[]), 2)?;
    answers("a time gone back", versions_put(t, m, d, 255, 999, &[]), 4)?;
    answers("content of 511 bytes", versions_put(t, m, d, 255, 1000, &[0; 511]), 6)?;
    same("the state", &s.state, &state)?;
    same("the memory", &s.a.memory, &memory)?;
    same("the disk", &s.a.disk, &disk)?;
    // Blocks 2 to 62 are taken and frozen: only 63 is left besides the reserve.
    (2..63).try_for_each(|put| s.puts(put, 1000, 2, put as u64))?;
    let (state, memory, disk) = (s.state, s.a.memory, s.a.disk.clone());
    let Store { a: Archive { memory: m, disk: d, .. }, state: t } = &mut s;
    answers("one block free besides the reserve", versions_put(t, m, d, 255, 1000, &[]), 14)?;
    answers("a flush with one block free", versions_flush(t, m, d, 1000) as u64, 14)?;
    same("the state", &s.state, &state)?;
    same("the memory", &s.a.memory, &memory)?;
    same("the disk", &s.a.disk, &disk)
}
