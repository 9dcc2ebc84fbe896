//! Lists on the archive alone, with bytes that are written out here: document 01's worked numbers, with
//! the full seconds of document 02's Q-2.
use super::super::alone::Archive;
use super::super::Checked;

/// 1000 seconds past: what a blank entry has left at 1000.
const BLANK_AT_1000: [u8; 9] = [0, 0x18, 0xFC, 0xFF, 0xFF, 0xFF, 0xFF, 0xFF, 0xFF];
const LOCK_500: [u8; 9] = [1, 0xF4, 0x01, 0, 0, 0, 0, 0, 0];

pub fn check() -> Checked {
    worked()?;
    locks()?;
    refusals()?;
    Ok("lists by hand".into())
}

/// Lock 500 written at 1000, unfrozen at 1200, counting to 1701: held at first, then on the disk
/// while another group's page is held, then with none held.
fn worked() -> Result<(), String> {
    let mut a = Archive::formatted(2)?;
    a.gets(4, 0, 1000, 500, 0)?;
    a.lists(&[0], 1000, 1, &[LOCK_500])?;
    a.lists(&[64, 0, 1, 0], 1000, 2, &[BLANK_AT_1000, LOCK_500, BLANK_AT_1000, LOCK_500])?;
    a.gets(5, 0, 1200, 0, 0)?;
    a.lists(&[0, 0], 1650, 1, &[[2, 51, 0, 0, 0, 0, 0, 0, 0]; 2])?;
    a.gets(4, 127, 1650, 500, 0)?;
    a.lists(&[127, 0], 1700, 2, &[LOCK_500, [2, 1, 0, 0, 0, 0, 0, 0, 0]])?;
    a.lists(&[0, 127], 1701, 2, &[[0; 9], LOCK_500])?;
    a.gets(7, 0, 1701, 0, 0)?;
    let past = [0, 0xCE, 0xFF, 0xFF, 0xFF, 0xFF, 0xFF, 0xFF, 0xFF];
    a.lists(&[127, 127, 0], 1751, 2, &[LOCK_500, LOCK_500, past])
}

/// Lock 0, frozen and then free at 1200; the longest lock, and the latest expiry of all.
fn locks() -> Result<(), String> {
    let mut a = Archive::formatted(1)?;
    a.gets(4, 5, 1000, 0, 0)?;
    a.gets(4, 6, 1000, 2_147_483_647, 0)?;
    let longest = [1, 0xFF, 0xFF, 0xFF, 0x7F, 0, 0, 0, 0];
    a.lists(&[5, 6], 1200, 1, &[[1, 0, 0, 0, 0, 0, 0, 0, 0], longest])?;
    a.gets(5, 5, 1200, 0, 0)?;
    a.lists(&[6, 5], 1200, 1, &[longest, [0; 9]])?;
    a.gets(5, 6, 1200, 0, 0)?;
    a.gets(6, 6, 1200, 2_147_482_447, 0)?;
    a.lists(&[6], 1200, 1, &[[2, 0x4F, 0xFB, 0xFF, 0xFF, 0, 0, 0, 0]])
}

/// The bytes of a list that is none, numbers out of range, wrong answers, and times.
fn refusals() -> Result<(), String> {
    let mut a = Archive::formatted(1)?;
    for bytes in [0, 3, 5, 257, 260] {
        a.refuses(&vec![0; bytes], 0, 9 * (bytes / 4), 12)?;
    }
    a.refuses(&[64, 0, 0, 0], 0, 9, 5)?;
    a.refuses(&[63, 0, 0, 0, 0, 1, 0, 0], 0, 18, 5)?;
    a.refuses(&[63, 0, 0, 0], 0, 8, 6)?;
    a.refuses(&[63, 0, 0, 0], 0, 10, 6)?;
    a.refuses(&[63, 0, 0, 0], 2_147_483_648, 9, 4)
}
