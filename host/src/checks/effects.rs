//! What the kinds do to memory, disk and answer, on the archive alone and with bytes written by hand:
//! one run in a box of two groups.
use super::alone::{same, Archive};
use super::Checked;

const BLANK: [u8; 8] = [0, 0, 0, 0, 1, 0, 0, 0];
/// No page is held, and so it has no updates.
const NONE: [u8; 2] = [255, 0];

/// The memory from the counts of the two groups on: counts, last time, G, held and the updates to the held page.
fn memory(a: &Archive, counts: [u8; 2], time: u8, [held, updates]: [u8; 2]) -> Result<(), String> {
    same("the counts", &a.memory[32..40], &[counts[0], 0, 0, 0, counts[1], 0, 0, 0])?;
    same("the other counts", &a.memory[40..288], &[0; 248])?;
    same("time, G and held", &a.memory[288..296], &[time, 0, 0, 0, 2, held, updates, 0])?;
    if held == 255 {
        same("the held page", &a.memory[296..], &[0; 512])?;
    }
    Ok(())
}

/// An entry of group 0's page, and one of group 1's, on the disk.
fn pages(a: &Archive, first: (usize, [u8; 8]), second: (usize, [u8; 8])) -> Result<(), String> {
    same("group 0's page", &a.disk[64 * 512 + 8 * first.0..][..8], &first.1)?;
    same("group 1's page", &a.disk[129 * 512 + 8 * second.0..][..8], &second.1)
}

pub fn check() -> Checked {
    let mut a = Archive::formatted(2)?;
    updates(&mut a)?;
    restarts(&mut a)?;
    syncs(&mut a)?;
    looks(&mut a)?;
    clears(&mut a)?;
    Ok("effects by hand".into())
}

/// The page is held; another group's update puts it on the disk, and one of its own does not.
fn updates(a: &mut Archive) -> Result<(), String> {
    a.gets(4, 3, 100, 9, 0)?;
    memory(a, [1, 0], 100, [0, 1])?;
    pages(a, (3, BLANK), (0, BLANK))?;
    same("the held entry", &a.memory[296 + 24..][..8], &[9, 0, 0, 0, 200, 0, 0, 0])?;
    same("the page answered", &a.answer[..512], &a.memory[296..])?;
    a.gets(6, 3, 101, 1, 0)?;
    memory(a, [2, 0], 101, [0, 2])?;
    pages(a, (3, BLANK), (0, BLANK))?;
    a.gets(4, 64, 102, 5, 0)?;
    memory(a, [2, 1], 102, [1, 1])?;
    pages(a, (3, [10, 0, 0, 0, 200, 0, 0, 0]), (0, BLANK))?;
    a.gets(1, 3, 102, 0, 0)?;
    same("what is read", &a.answer[..512], &[0x44; 512])?;
    same("the rest of the answer", &a.answer[512..], &[0; 32])
}

/// The kinds that only look set the last time too, and change nothing else.
fn looks(a: &mut Archive) -> Result<(), String> {
    let disk = a.disk.clone();
    for (kind, time) in [(1, 110), (2, 111), (3, 112), (10, 113)] {
        a.gets(kind, 1, time as u32, 0, 0)?;
        memory(a, [0, 0], time, NONE)?;
        same("the disk", &a.disk, &disk)?;
    }
    Ok(())
}

/// All 512 held bytes are cleared, the last one too, which a late time of write fills.
fn clears(a: &mut Archive) -> Result<(), String> {
    for (kind, time) in [(7, 2_000_000_000), (8, 2_000_000_001)] {
        a.gets(4, 127, time, 0, 0)?;
        same("the last byte held", &a.memory[807..], &[0xEE])?;
        a.gets(5, 127, time, 0, 0)?;
        a.gets(kind, 0, time, 0, 0)?;
        same("the held page", &a.memory[293..], &[&[255, 0, 0][..], &[0; 512]].concat())?;
    }
    Ok(())
}

/// The held page is lost and its count raised; with none held only the time changes.
fn restarts(a: &mut Archive) -> Result<(), String> {
    a.gets(8, 0, 103, 0, 0)?;
    same("a restart's answer", &a.answer, &[0; 544])?;
    memory(a, [2, 2], 103, NONE)?;
    pages(a, (3, [10, 0, 0, 0, 200, 0, 0, 0]), (0, BLANK))?;
    a.gets(3, 1, 103, 0, 0)?;
    a.gets(8, 0, 104, 0, 0)?;
    same("a restart's answer", &a.answer, &[0; 544])?;
    memory(a, [2, 2], 104, NONE)
}

/// The held page goes to the disk and the counts stay; a new salt sets them to 0.
fn syncs(a: &mut Archive) -> Result<(), String> {
    a.gets(4, 65, 105, 7, 0)?;
    a.gets(7, 0, 106, 0, 0)?;
    same("a sync's answer", &a.answer, &[0; 544])?;
    memory(a, [2, 3], 106, NONE)?;
    pages(a, (3, [10, 0, 0, 0, 200, 0, 0, 0]), (1, [7, 0, 0, 0, 210, 0, 0, 0]))?;
    a.gets(4, 4, 107, 8, 0)?;
    a.gets(9, 0, 108, 0, 0)?;
    same("a new salt's answer", &a.answer, &[0; 544])?;
    same("the new salt", &a.memory[..32], &[0x99; 32])?;
    memory(a, [0, 0], 108, NONE)?;
    pages(a, (4, [8, 0, 0, 0, 214, 0, 0, 0]), (1, [7, 0, 0, 0, 210, 0, 0, 0]))?;
    a.gets(9, 0, 109, 0, 11)?;
    memory(a, [0, 0], 108, NONE)?;
    same("the answer after a refusal", &a.answer, &[0; 544])
}
