//! Recovery on the archive alone, with bytes that are written out here.
use super::super::alone::{same, Archive};
use super::super::versions::hand::{answers, Store};
use super::super::Checked;
use super::made::log_block;
use crate::archive::{command, recover};

/// A result that has no block.
const NOTHING: [u8; 1024] = [0xFF; 1024];

pub fn check() -> Checked {
    one_log_block()?;
    two_log_blocks()?;
    intrusion()?;
    refusals()?;
    Ok("recovery by hand".into())
}

/// The walk is accepted and has this result; memory and disk, which it may only read, are as they were.
fn finds(a: &mut Archive, point: u32, now: u32, right: &[u8; 1024]) -> Result<(), String> {
    let what = format!("the walk as of {point} at {now}");
    let before = a.clone();
    let mut result = [0xAA; 1024];
    answers(&what, recover(&a.memory, &a.disk, point, now, &mut result) as u64, 0)?;
    same(&what, &result, right)?;
    same("the memory", &a.memory, &before.memory)?;
    same("the disk", &a.disk, &before.disk)
}

/// Part 7 in block 1 and then in 3, part 255 in block 2, at 1000 to 1002; the log block is written at 1003.
fn three_puts() -> Result<Store, String> {
    let mut s = Store::started(1)?;
    s.puts(7, 1000, 0x11, 1)?;
    s.puts(255, 1001, 0x22, 2)?;
    s.puts(7, 1002, 0x33, 3)?;
    finds(&mut s.a, 1002, 1002, &NOTHING)?;
    s.flushes(1003)?;
    Ok(s)
}

/// What it has: part 7 in block 3, at bytes 28 to 31, and part 255 in block 2, at the last four.
fn found() -> [u8; 1024] {
    let mut right = NOTHING;
    right[28..32].copy_from_slice(&[3, 0, 0, 0]);
    right[1020..].copy_from_slice(&[2, 0, 0, 0]);
    right
}

fn one_log_block() -> Result<(), String> {
    let mut s = three_puts()?;
    for _ in 0..2 {
        finds(&mut s.a, 1003, 1003, &found())?;
        finds(&mut s.a, 1003, 2_147_483_647, &found())?;
        finds(&mut s.a, 4_294_967_295, 1503, &found())?;
        finds(&mut s.a, 1002, 1003, &NOTHING)?;
        finds(&mut s.a, 0, 1003, &NOTHING)?;
        // The same with the page on the disk.
        s.a.gets(7, 0, 1003, 0, 0)?;
    }
    Ok(())
}

/// Parts 0 to 62 in blocks 1 to 63 fill block 0 at 1000. Part 0 again in block 65, and 200 in 66, are in block 64, written at 1100.
fn two_log_blocks() -> Result<(), String> {
    let mut s = Store::started(2)?;
    (0..63).try_for_each(|part| s.puts(part, 1000, part as u8, part as u64 + 1))?;
    s.puts(0, 1100, 0xEE, 65)?;
    s.puts(200, 1100, 0xDD, 66)?;
    s.flushes(1100)?;
    let mut first = NOTHING;
    (0..63).for_each(|part| first[4 * part..4 * part + 4].copy_from_slice(&[part as u8 + 1, 0, 0, 0]));
    let mut second = first;
    second[..4].copy_from_slice(&[65, 0, 0, 0]);
    second[800..804].copy_from_slice(&[66, 0, 0, 0]);
    finds(&mut s.a, 1100, 1100, &second)?;
    // As of the time before, the version that was replaced is found as long as it counts down: to 1100 + 500 + 1.
    finds(&mut s.a, 1099, 1600, &first)?;
    let mut lapsed = first;
    lapsed[..4].fill(0xFF);
    finds(&mut s.a, 1099, 1601, &lapsed)?;
    finds(&mut s.a, 999, 1600, &NOTHING)
}

/// After X, which is 1003, all blocks of the log are unfrozen, the reserve gets a log block of other records, and a free block is
/// written. Unfrozen at 1004 they count to 1004 + 500 + 1. A restart, before a sync and after it, and a new salt change nothing.
fn intrusion() -> Result<(), String> {
    let mut s = three_puts()?;
    s.a.gets(7, 0, 1003, 0, 0)?;
    for block in [0, 2, 3] {
        s.a.gets(5, block, 1004, 0, 0)?;
    }
    writes(&mut s.a, 4, 1004, &log_block(&[(7, 5), (255, 5), (9, 5)], 0))?;
    writes(&mut s.a, 5, 1005, &[0x66; 512])?;
    finds(&mut s.a, 1003, 1502, &found())?;
    finds(&mut s.a, 1003, 1504, &found())?;
    // As of a time after the intrusion its records count too; and as of 1505 the log is free.
    let mut spoofed = found();
    for part in [7, 9, 255] {
        spoofed[4 * part..4 * part + 4].copy_from_slice(&[5, 0, 0, 0]);
    }
    finds(&mut s.a, 1005, 1504, &spoofed)?;
    finds(&mut s.a, 1003, 1505, &NOTHING)?;
    let mut synced = s.a.clone();
    synced.gets(7, 0, 1006, 0, 0)?;
    for a in [&mut s.a, &mut synced] {
        a.gets(8, 0, 1006, 0, 0)?;
        finds(a, 1003, 1502, &found())?;
        a.gets(9, 0, 1007, 0, 0)?;
        finds(a, 1003, 1502, &found())?;
    }
    // The restart lost the unfreezes that were not synced.
    finds(&mut s.a, 1003, 1505, &found())?;
    finds(&mut synced, 1003, 1505, &NOTHING)?;
    s.reads("part 7", 3, 1502, &[0x33; 512])?;
    s.reads("part 255", 2, 1502, &[0x22; 512])
}

/// A write under lock 9 of these bytes.
fn writes(a: &mut Archive, block: u32, now: u32, data: &[u8; 512]) -> Result<(), String> {
    a.gets(3, block / 64, now, 0, 0)?;
    let proof = a.answer;
    let got = command(&mut a.memory, &mut a.disk, 4, block, now, 9, data, &proof, &mut a.answer);
    answers(&format!("the write of block {block}"), got as u64, 0)
}

/// Each number once, with the next questions said no to as well; the result keeps its bytes.
fn refusals() -> Result<(), String> {
    let s = three_puts()?;
    let Archive { memory, disk, .. } = &s.a;
    let mut result = [0xAA; 1025];
    answers("a memory short of a byte", recover(&memory[..807], &disk[1..], 1003, 0, &mut result) as u64, 1)?;
    answers("no memory", recover(&[], &[], 1003, 0, &mut []) as u64, 1)?;
    answers("a disk short of a byte", recover(memory, &disk[1..], 1003, 0, &mut result) as u64, 2)?;
    answers("a time gone back", recover(memory, disk, 1003, 1002, &mut result) as u64, 4)?;
    answers("a time too late", recover(memory, disk, 1003, 2_147_483_648, &mut result) as u64, 4)?;
    answers("a result of 1,025 bytes", recover(memory, disk, 1003, 1003, &mut result) as u64, 6)?;
    answers("a result of 1,023 bytes", recover(memory, disk, 1003, 1003, &mut result[..1023]) as u64, 6)?;
    same("the result", &result, &[0xAA; 1025])
}
