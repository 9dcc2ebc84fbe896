//! Each clause of an old memory's validity, broken on its own and met at its limits, for each number of groups, with a page held and
//! none. Whether the memory is valid is written here by hand.
use super::super::call::{put_number, LATEST};
use super::super::places::{COUNTS, OLD};
use super::super::Checked;
use super::{judged, old_memory, Migrations, NONE};

pub fn check(migrations: &mut Migrations) -> Checked {
    let start = migrations.made;
    for groups in 1..=16 {
        for held in [NONE, 0, groups / 2, groups - 1] {
            let right = old_memory(groups, held);
            judged(migrations, &right, true)?;
            numbers(migrations, &right, groups as usize, held)?;
            header(migrations, &right, groups, held)?;
            bytes(migrations, &right, groups as usize, held)?;
        }
    }
    Ok(format!("clauses of validity: {} migrations", migrations.made - start))
}

/// The last time and the counts at their limits.
fn numbers(migrations: &mut Migrations, right: &[u8], groups: usize, held: u8) -> Result<(), String> {
    let mut put = |at: usize, number: u32, valid: bool| {
        let mut old = right.to_vec();
        put_number(&mut old, at, number);
        judged(migrations, &old, valid)
    };
    for (time, valid) in [(0, true), (1, true), (LATEST - 1, true), (LATEST, true), (LATEST + 1, false), (u32::MAX, false)] {
        put(OLD.last_time, time, valid)?;
    }
    for group in 0..groups {
        let of_held = group == held as usize;
        for (count, limited) in [(0, true), (1, false), (256, false), (1 << 31, false), (u32::MAX - 1, false), (u32::MAX, true)] {
            put(COUNTS + 4 * group, count, !(of_held && limited))?;
        }
    }
    Ok(())
}

/// Each value of G, held, updates and the zero byte. The counts of all groups are not zero.
fn header(migrations: &mut Migrations, right: &[u8], groups: u8, held: u8) -> Result<(), String> {
    for byte in 0..=255 {
        for (at, valid) in [
            (OLD.groups, (groups..=16).contains(&byte)),
            (OLD.held, if held == NONE { byte == NONE } else { byte < groups }),
            (OLD.updates, if held == NONE { byte == 0 } else { (1..=63).contains(&byte) }),
            (OLD.zero, byte == 0),
        ] {
            let mut old = right.to_vec();
            old[at] = byte;
            judged(migrations, &old, valid)?;
        }
    }
    Ok(())
}

/// Each byte of the counts from G on, of the held page and of the salt.
fn bytes(migrations: &mut Migrations, right: &[u8], groups: usize, held: u8) -> Result<(), String> {
    let unused = (COUNTS + 4 * groups..OLD.last_time).map(|at| (at, false));
    let page = (OLD.page..OLD.size).map(|at| (at, held != NONE));
    let salt = (0..COUNTS).map(|at| (at, true));
    for (at, valid) in unused.chain(page).chain(salt) {
        for byte in [1, 128] {
            let mut old = right.to_vec();
            old[at] = byte;
            judged(migrations, &old, valid)?;
        }
    }
    Ok(())
}
