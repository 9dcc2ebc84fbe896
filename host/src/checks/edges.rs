//! Document 01's edge values, with the full seconds of document 02's Q-2, on the archive alone and with
//! bytes that are written out here.
use super::alone::{same, Archive};
use super::Checked;

pub fn check() -> Checked {
    formatting()?;
    places(16, [(63, 63), (64, 65), (1023, 1038)], 1039)?;
    places(64, [(1023, 1038), (1024, 1040), (4095, 4158)], 4159)?;
    entry()?;
    stored_expiry()?;
    zero_lock()?;
    short_lock(1, 1202)?;
    short_lock(2, 1203)?;
    longest_lock()?;
    script()?;
    Ok("edge values by hand".into())
}

/// A memory of one group and zero salt, blank entries, data blocks as they were; and the tag of the
/// blank page, by b3sum.
fn formatting() -> Result<(), String> {
    let mut a = Archive::formatted(1)?;
    same("the formatted memory", &a.memory[..292], &[0; 292])?;
    same("the formatted memory", &a.memory[292..296], &[1, 255, 0, 0])?;
    same("the formatted memory", &a.memory[296..], &[0; 512])?;
    same("the data blocks", &a.disk[..32_768], &[0xBB; 32_768])?;
    same("the blank page", &a.disk[32_768..], &[0, 0, 0, 0, 1, 0, 0, 0].repeat(64))?;
    a.gets(3, 0, 0, 0, 0)?;
    same("the blank page", &a.answer[..512], &[0, 0, 0, 0, 1, 0, 0, 0].repeat(64))?;
    same("its tag", &a.answer[512..], &BLANK_TAG)?;
    a.gets(10, 0, 0, 0, 0)?;
    same("identify", &a.answer[..8], &[1, 0, 0, 0, 64, 0, 0, 0])?;
    same("identify", &a.answer[8..], &[0; 536])
}

/// What b3sum says of 44 zero bytes and the blank page.
const BLANK_TAG: [u8; 32] = [
    0xF8, 0xF3, 0x06, 0xAF, 0xB7, 0x85, 0x41, 0x59, 0x85, 0x0A, 0xB1, 0x88, 0xEE, 0x3A, 0xD9, 0x5C, 0x42, 0xAD, 0x1B,
    0x1D, 0x4C, 0x2B, 0xB2, 0xA0, 0x66, 0xCB, 0xA0, 0x55, 0xA9, 0x5F, 0x37, 0x07,
];

/// Blocks and where they lie, and the last group's page: 63 lies at 63, 64 at 65, 1,023 at 1,038; the page of group 15 at 1,039.
fn places(groups: u32, blocks: [(u32, usize); 3], last_page: usize) -> Result<(), String> {
    let mut a = Archive::formatted(groups)?;
    for (block, physical) in blocks {
        let before = a.disk.clone();
        a.gets(7, 0, 0, 0, 0)?;
        same(&format!("the block before {block} is written"), &a.disk[physical * 512..][..512], &[0xBB; 512])?;
        a.gets(4, block, 0, 0, 0)?;
        same(&format!("block {block}"), &a.disk[physical * 512..][..512], &[0x44; 512])?;
        let changed = (0..=last_page).filter(|b| a.disk[b * 512..][..512] != before[b * 512..][..512]);
        let data: Vec<usize> = changed.filter(|b| b % 65 != 64).collect();
        if data != [physical] {
            return Err(format!("by hand: the write of {block} changed the data blocks {data:?}"));
        }
        a.gets(1, block, 0, 0, 0)?;
        same(&format!("what is read of {block}"), &a.answer[..512], &[0x44; 512])?;
    }
    same("the last entry before the sync", &a.disk[last_page * 512 + 504..], &[0, 0, 0, 0, 1, 0, 0, 0])?;
    a.gets(7, 0, 0, 0, 0)?;
    same("the last entry of the last group's page", &a.disk[last_page * 512 + 504..], &[0, 0, 0, 0, 0, 0, 0, 0])
}

/// Lock 500 written at 1000, unfrozen at 1200, counting to 1701, and grown by 100 in another box.
fn entry() -> Result<(), String> {
    let mut a = Archive::formatted(1)?;
    a.gets(4, 0, 1000, 500, 0)?;
    same("the entry written at 1000", &a.answer[..8], &[0xF4, 0x01, 0, 0, 0xD0, 0x07, 0, 0])?;
    a.shows(0, 1100, [0xF4, 0x01, 0, 0, 0xD0, 0x07, 0, 0, 0xF4, 0x01, 0, 0, 0, 0, 0, 0, 1])?;
    a.gets(5, 0, 1200, 0, 0)?;
    same("the entry unfrozen at 1200", &a.answer[..8], &[0xA5, 0x06, 0, 0, 0xD1, 0x07, 0, 0])?;
    a.gets(5, 0, 1300, 0, 9)?;
    a.shows(0, 1650, [0xA5, 0x06, 0, 0, 0xD1, 0x07, 0, 0, 51, 0, 0, 0, 0, 0, 0, 0, 2])?;
    a.shows(0, 1700, [0xA5, 0x06, 0, 0, 0xD1, 0x07, 0, 0, 1, 0, 0, 0, 0, 0, 0, 0, 2])?;
    a.shows(0, 1701, [0xA5, 0x06, 0, 0, 0xD1, 0x07, 0, 0, 0, 0, 0, 0, 0, 0, 0, 0, 0])?;
    let mut b = Archive::formatted(1)?;
    b.gets(4, 0, 1000, 500, 0)?;
    b.gets(5, 0, 1200, 0, 0)?;
    b.gets(6, 0, 1200, 100, 0)?;
    same("the entry grown by 100", &b.answer[..8], &[0x09, 0x07, 0, 0, 0xD1, 0x07, 0, 0])
}

/// Expiry 1700, stored on the disk before Q-2, keeps its word through an update of another block and a
/// sync; in another box it grows by 100.
fn stored_expiry() -> Result<(), String> {
    let mut a = Archive::formatted(1)?;
    a.disk[32_768..][..8].copy_from_slice(&[0xA4, 0x06, 0, 0, 0xD1, 0x07, 0, 0]);
    let mut b = a.clone();
    a.shows(0, 1650, [0xA4, 0x06, 0, 0, 0xD1, 0x07, 0, 0, 50, 0, 0, 0, 0, 0, 0, 0, 2])?;
    a.gets(4, 1, 1650, 7, 0)?;
    a.gets(7, 0, 1650, 0, 0)?;
    a.shows(0, 1700, [0xA4, 0x06, 0, 0, 0xD1, 0x07, 0, 0, 0, 0, 0, 0, 0, 0, 0, 0, 0])?;
    let past = [0xA4, 0x06, 0, 0, 0xD1, 0x07, 0, 0, 0xCE, 0xFF, 0xFF, 0xFF, 0xFF, 0xFF, 0xFF, 0xFF, 0];
    a.shows(0, 1750, past)?;
    b.gets(6, 0, 1650, 100, 0)?;
    same("the stored expiry grown by 100", &b.answer[..8], &[0x08, 0x07, 0, 0, 0xD1, 0x07, 0, 0])
}

/// Lock 0 unfrozen at 1200 is free at 1200.
fn zero_lock() -> Result<(), String> {
    let mut a = Archive::formatted(1)?;
    a.gets(4, 5, 1000, 0, 0)?;
    a.gets(4, 5, 1200, 0, 9)?;
    a.gets(5, 5, 1200, 0, 0)?;
    a.shows(5, 1200, [0xB0, 0x04, 0, 0, 0xD1, 0x07, 0, 0, 0, 0, 0, 0, 0, 0, 0, 0, 0])?;
    a.gets(4, 5, 1200, 1, 0)
}

/// A lock of one or two seconds, unfrozen at 1200: counting up to the second before its expiry, and free
/// at it.
fn short_lock(lock: u32, expiry: u32) -> Result<(), String> {
    let mut a = Archive::formatted(1)?;
    let low = expiry as u8;
    a.gets(4, 5, 1000, lock, 0)?;
    a.gets(5, 5, 1200, 0, 0)?;
    a.gets(4, 5, expiry - 1, 0, 9)?;
    a.shows(5, expiry - 1, [low, 0x04, 0, 0, 0xD1, 0x07, 0, 0, 1, 0, 0, 0, 0, 0, 0, 0, 2])?;
    a.shows(5, expiry, [low, 0x04, 0, 0, 0xD1, 0x07, 0, 0, 0, 0, 0, 0, 0, 0, 0, 0, 0])?;
    a.gets(4, 5, expiry, 0, 0)
}

/// Lock 2,147,483,647 passes and 2,147,483,648 gets 10. Unfrozen as late as can be, it counts to the
/// latest expiry, which grows no more.
fn longest_lock() -> Result<(), String> {
    let mut a = Archive::formatted(1)?;
    a.gets(4, 0, 1000, 2_147_483_648, 10)?;
    a.gets(4, 0, 1000, 2_147_483_647, 0)?;
    same("the longest lock", &a.answer[..8], &[0xFF, 0xFF, 0xFF, 0x7F, 0xD0, 0x07, 0, 0])?;
    a.gets(5, 0, 2_147_483_647, 0, 0)?;
    a.gets(6, 0, 2_147_483_647, 1, 10)?;
    let latest = [0xFF, 0xFF, 0xFF, 0xFF, 0xD1, 0x07, 0, 0, 0, 0, 0, 0x80, 0, 0, 0, 0, 2];
    a.shows(0, 2_147_483_647, latest)
}

/// The numbers of document 01's script, by document 02, and that the block is free a second later.
fn script() -> Result<(), String> {
    let mut a = Archive::formatted(1)?;
    a.gets(4, 0, 1000, 500, 0)?;
    a.gets(5, 0, 1200, 0, 0)?;
    a.gets(4, 0, 1699, 9, 9)?;
    a.shows(0, 1699, [0xA5, 0x06, 0, 0, 0xD1, 0x07, 0, 0, 2, 0, 0, 0, 0, 0, 0, 0, 2])?;
    a.gets(4, 0, 1700, 9, 9)?;
    a.gets(5, 64, 1700, 0, 5)?;
    a.gets(4, 0, 1701, 9, 0)
}
