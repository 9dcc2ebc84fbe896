//! Pages that leave by themselves, on the archive alone and with bytes written by hand: a box of two groups with a zero salt.
use super::super::alone::{same, Archive};
use super::super::Checked;

const BLANK: [u8; 8] = [0, 0, 0, 0, 1, 0, 0, 0];

pub fn check() -> Checked {
    leaves()?;
    writes()?;
    begins_anew()?;
    restarts()?;
    refuses()?;
    Ok("pages that leave by hand".into())
}

/// Block 3 is written under lock 0 at 100, and its lock grows by 1 with each update of group 0, of which there are so many.
fn updated(updates: u32) -> Result<Archive, String> {
    let mut a = Archive::formatted(2)?;
    a.gets(4, 3, 100, 0, 0)?;
    (1..updates).try_for_each(|_| a.gets(6, 3, 100, 1, 0))?;
    Ok(a)
}

/// The counts of the two groups; G, the held group and its updates. With none held, its page is of zero bytes.
fn memory(a: &Archive, counts: [u8; 2], held: u8, updates: u8) -> Result<(), String> {
    same("the counts", &a.memory[32..40], &[counts[0], 0, 0, 0, counts[1], 0, 0, 0])?;
    same("time, G, held and updates", &a.memory[288..296], &[100, 0, 0, 0, 2, held, updates, 0])?;
    match held {
        255 => same("the held page", &a.memory[296..], &[0; 512]),
        _ => Ok(()),
    }
}

/// Group 0's page on the disk: block 3 has this lock, written at 100, and the others are blank; or all are.
fn stored(a: &Archive, lock: Option<u8>) -> Result<(), String> {
    let entry = lock.map_or(BLANK, |lock| [lock, 0, 0, 0, 200, 0, 0, 0]);
    let page = [&BLANK.repeat(3)[..], &entry, &BLANK.repeat(60)].concat();
    same("group 0's page", &a.disk[64 * 512..65 * 512], &page)
}

/// Byte 294 along the way, the 64th update, and the 128th. The tag is by b3sum: perl -e 'print "\0" x 32, pack("Q<", 0),
/// pack("L<", 64), pack("L<L<", 0, 1) x 3, pack("L<L<", 63, 200), pack("L<L<", 0, 1) x 60' | b3sum --no-names
fn leaves() -> Result<(), String> {
    let mut a = updated(1)?;
    for updates in 1..=63 {
        memory(&a, [updates, 0], 0, updates)?;
        stored(&a, None)?;
        a.gets(6, 3, 100, 1, 0)?;
    }
    let answer = a.answer;
    memory(&a, [64, 0], 255, 0)?;
    stored(&a, Some(63))?;
    same("the page answered with the 64th update", &answer[..512], &a.disk[64 * 512..65 * 512])?;
    same("its tag", &answer[512..], &TAG_64)?;
    a.gets(3, 0, 100, 0, 0)?;
    same("the page and tag of kind 3 after it", &a.answer, &answer)?;
    for updates in 1..=63 {
        a.gets(6, 3, 100, 1, 0)?;
        memory(&a, [64 + updates, 0], 0, updates)?;
        stored(&a, Some(63))?;
    }
    a.gets(6, 3, 100, 1, 0)?;
    memory(&a, [128, 0], 255, 0)?;
    stored(&a, Some(127))
}

const TAG_64: [u8; 32] = [
    0x27, 0x1E, 0x84, 0xBD, 0xE0, 0xB3, 0xB7, 0xCD, 0x64, 0x50, 0x81, 0x2C, 0xF3, 0x97, 0x17, 0x8C, 0x3D, 0x4B, 0x87,
    0x25, 0x61, 0x83, 0x6C, 0xEF, 0x5A, 0x06, 0x8D, 0x29, 0xC1, 0x94, 0x3C, 0x84,
];

/// Each kind as the 64th update: a write stores its data and the page, and nothing else of the disk changes.
fn writes() -> Result<(), String> {
    for (kind, block, value, entry) in [
        (4, 63, 9, [9, 0, 0, 0, 200, 0, 0, 0]),
        (5, 3, 0, [163, 0, 0, 0, 201, 0, 0, 0]), // 100 + 62 + 1
        (6, 3, 5, [67, 0, 0, 0, 200, 0, 0, 0]),
    ] {
        let mut a = updated(63)?;
        let mut disk = a.disk.clone();
        a.gets(kind, block, 100, value, 0)?;
        memory(&a, [64, 0], 255, 0)?;
        disk[64 * 512 + 24..][..8].copy_from_slice(&[62, 0, 0, 0, 200, 0, 0, 0]);
        disk[64 * 512 + 8 * block as usize..][..8].copy_from_slice(&entry);
        if kind == 4 {
            disk[63 * 512..64 * 512].fill(0x44);
        }
        same(&format!("the disk after kind {kind}"), &a.disk, &disk)?;
        same("the page answered", &a.answer[..512], &a.disk[64 * 512..65 * 512])?;
    }
    Ok(())
}

/// A sync, a restart, a new salt and an update of another group begin the count anew.
fn begins_anew() -> Result<(), String> {
    for (kind, count, lock) in [(7, 63, Some(62)), (8, 64, None), (9, 0, Some(62))] {
        let mut a = updated(63)?;
        a.gets(kind, 0, 100, 0, 0)?;
        memory(&a, [count, 0], 255, 0)?;
        stored(&a, lock)?;
        a.gets(4, 9, 100, 1, 0)?;
        memory(&a, [count + 1, 0], 0, 1)?;
        stored(&a, lock)?;
    }
    let mut a = updated(63)?;
    a.gets(4, 64, 100, 1, 0)?;
    memory(&a, [63, 1], 1, 1)?;
    stored(&a, Some(62))?;
    a.gets(6, 3, 100, 1, 0)?;
    memory(&a, [64, 1], 0, 1)?;
    same("group 1's page", &a.disk[129 * 512..][..8], &[1, 0, 0, 0, 200, 0, 0, 0])
}

/// A restart loses 63 updates, and none of 64: then no page is held, and the count stays.
fn restarts() -> Result<(), String> {
    for (updates, lock) in [(63, None), (64, Some(63))] {
        let mut a = updated(updates)?;
        a.gets(8, 0, 100, 0, 0)?;
        memory(&a, [64, 0], 255, 0)?;
        stored(&a, lock)?;
    }
    Ok(())
}

/// A refused update is not counted. A memory whose page was held before Q-4 has 0 in byte 294 and gets 1; so does one of 64 updates,
/// and one of none held that has updates.
fn refuses() -> Result<(), String> {
    let mut a = updated(63)?;
    a.gets(4, 3, 100, 1, 9)?;
    a.gets(4, 4, 100, 2_147_483_648, 10)?;
    memory(&a, [63, 0], 0, 63)?;
    stored(&a, None)?;
    for byte in [0, 64, 255] {
        let mut b = a.clone();
        b.memory[294] = byte;
        (1..=10).filter(|kind| !(4..=6).contains(kind)).try_for_each(|kind| b.gets(kind, 0, 100, 0, 1))?;
        b.refuses(&[0; 4], 100, 9, 1)?;
    }
    let mut b = Archive::formatted(2)?;
    b.memory[294] = 1;
    b.gets(7, 0, 100, 0, 1)?;
    b.refuses(&[0; 4], 100, 9, 1)
}
