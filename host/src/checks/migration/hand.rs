//! Migration on the archive alone, with bytes that are written out here.
use super::super::alone::{numbered, same, Archive};
use super::super::Checked;
use crate::archive;

pub fn check() -> Checked {
    held()?;
    none_held()?;
    refusals()?;
    goes_on()?;
    Ok("migrations by hand".into())
}

/// Sixteen groups at 1000, of which group 15's page is held after 63 updates; its count is the highest.
fn sixteen() -> [u8; 616] {
    let mut old = [0; 616];
    old[..32].copy_from_slice(&[7; 32]);
    (0..16).for_each(|group| old[32 + 4 * group..36 + 4 * group].copy_from_slice(&[group as u8 + 1, 0, 0, 9]));
    old[92..96].copy_from_slice(&[0xFE, 0xFF, 0xFF, 0xFF]);
    old[96..104].copy_from_slice(&[0xE8, 0x03, 0, 0, 16, 15, 63, 0]);
    old[104..].copy_from_slice(&[0xF4, 0x01, 0, 0, 0xD0, 0x07, 0, 0].repeat(64));
    old
}

fn held() -> Result<(), String> {
    let (old, mut memory) = (sixteen(), [0xCC; 808]);
    numbered("a migration with a page held", archive::migrate(&old, &mut memory), 0)?;
    same("the salt", &memory[..32], &[7; 32])?;
    same("the first count", &memory[32..36], &[1, 0, 0, 9])?;
    same("the counts", &memory[32..96], &old[32..96])?;
    same("the last of them", &memory[92..96], &[0xFE, 0xFF, 0xFF, 0xFF])?;
    same("the new counts", &memory[96..288], &[0; 192])?;
    same("time, G, held, updates and zero", &memory[288..296], &[0xE8, 0x03, 0, 0, 16, 15, 63, 0])?;
    same("the held page", &memory[296..], &[0xF4, 0x01, 0, 0, 0xD0, 0x07, 0, 0].repeat(64))?;
    same("the old memory", &old, &sixteen())
}

fn none_held() -> Result<(), String> {
    let (mut old, mut memory) = ([0; 616], [0xCC; 808]);
    old[96..104].copy_from_slice(&[0xFF, 0xFF, 0xFF, 0x7F, 1, 255, 0, 0]);
    numbered("a migration with none held", archive::migrate(&old, &mut memory), 0)?;
    let right = [&[0; 288][..], &[0xFF, 0xFF, 0xFF, 0x7F, 1, 255, 0, 0], &[0; 512]].concat();
    same("the migrated memory", &memory, &right)
}

/// A byte that is wrong, alone; a buffer of another length; a memory of the present box.
fn refusals() -> Result<(), String> {
    for (at, byte) in [(99, 0x80), (100, 0), (100, 15), (100, 17), (100, 64), (101, 16), (101, 255), (102, 0), (102, 64), (103, 1), (92, 0xFF)] {
        let (mut old, mut memory) = (sixteen(), [0xCC; 808]);
        old[at] = byte;
        numbered(&format!("a migration with {byte} at {at}"), archive::migrate(&old, &mut memory), 1)?;
        same("a buffer refused", &memory, &[0xCC; 808])?;
    }
    for len in [0, 616, 807, 809] {
        let mut memory = vec![0xCC; len];
        numbered(&format!("a migration into {len} bytes"), archive::migrate(&sixteen(), &mut memory), 1)?;
        same("a buffer refused", &memory, &vec![0xCC; len])?;
    }
    let (present, mut memory) = (Archive::formatted(2)?.memory, [0xCC; 808]);
    for old in [&present[..], &present[..616], &sixteen()[..615], &[]] {
        numbered(&format!("a migration of {} bytes", old.len()), archive::migrate(old, &mut memory), 1)?;
        same("a buffer refused", &memory, &[0xCC; 808])?;
    }
    Ok(())
}

/// A box of two groups with block 3 written under lock 500 at 1000, its page held with 63 updates: the next update is the 64th, with
/// which the page leaves.
fn goes_on() -> Result<(), String> {
    let mut old = [0; 616];
    old[32] = 63;
    old[96..104].copy_from_slice(&[0xE8, 0x03, 0, 0, 2, 0, 63, 0]);
    old[104..].copy_from_slice(&[0, 0, 0, 0, 1, 0, 0, 0].repeat(64));
    old[128..136].copy_from_slice(&[0xF4, 0x01, 0, 0, 0xD0, 0x07, 0, 0]);
    let mut a = Archive::formatted(2)?;
    a.memory = [0xCC; 808];
    numbered("a migration", archive::migrate(&old, &mut a.memory), 0)?;
    a.shows(3, 1000, [0xF4, 0x01, 0, 0, 0xD0, 0x07, 0, 0, 0xF4, 0x01, 0, 0, 0, 0, 0, 0, 1])?;
    a.gets(10, 0, 1000, 0, 0)?;
    same("identify", &a.answer[..8], &[2, 0, 0, 0, 128, 0, 0, 0])?;
    a.gets(4, 128, 1000, 0, 5)?;
    a.gets(5, 3, 1200, 0, 0)?;
    same("the count after the 64th update", &a.memory[32..36], &[64, 0, 0, 0])?;
    same("time, G, held, updates and zero", &a.memory[288..296], &[0xB0, 0x04, 0, 0, 2, 255, 0, 0])?;
    same("the page on the disk", &a.disk[64 * 512 + 24..][..8], &[0xA5, 0x06, 0, 0, 0xD1, 0x07, 0, 0])
}
