//! The point X and the time at their limits.
use super::super::call::{put_number, LATEST};
use super::super::places::PRESENT;
use super::super::versions::snapshot::Snapshot;
use super::super::Checked;
use super::made::frozen;
use super::walks::{Walk, Walks};

pub fn check(walks: &mut Walks) -> Checked {
    let before = walks.made;
    points(walks)?;
    nows(walks)?;
    refused(walks)?;
    Ok(format!("times: {} walks", walks.made - before))
}

/// A log of two blocks, written at these times, each with a record that names itself.
fn two(times: [u32; 2]) -> Snapshot {
    let mut made = Snapshot::empty(1);
    put_number(&mut made.memory, PRESENT.last_time, 0);
    for (block, pointer) in [(0, 1), (1, u64::MAX)] {
        made.log(block, &[(block + 1, block)], pointer);
        made.set_entry(block, frozen(times[block as usize]));
    }
    made
}

/// X is any number: a point above the latest time leaves out nothing. It may be before, at or after now.
fn points(walks: &mut Walks) -> Result<(), String> {
    let found = [(1, 0), (2, 1)];
    for (times, point, count) in [
        ([0, 0], 0, 2), ([0, 1], 0, 1), ([1, 1], 0, 0), ([1, 1], 1, 2), ([0, LATEST], LATEST, 2), ([0, LATEST], LATEST - 1, 1),
        ([LATEST, LATEST], LATEST, 2), ([LATEST, LATEST], LATEST - 1, 0), ([LATEST, LATEST], 1 << 31, 2), ([LATEST, LATEST], u32::MAX, 2),
        ([0, 0], 1 << 31, 2), ([0, 0], u32::MAX, 2), ([5, 6], u32::MAX - 1, 2), ([6, 5], u32::MAX, 1), ([1 << 30, 1 << 30], 1 << 31, 2),
        ([1 << 30, 1 << 30], (1 << 30) - 1, 0),
    ] {
        for now in [0, 1, LATEST] {
            walks.expect_in(&two(times), point, now, &found[..count])?;
        }
    }
    Ok(())
}

/// Free from the expiry on, at the limits of both; the last time decides nothing, only now does.
fn nows(walks: &mut Walks) -> Result<(), String> {
    for (expiry, now, held) in [
        (0, 0, false), (1, 0, true), (1, 1, false), (LATEST, LATEST - 1, true), (LATEST, LATEST, false), (LATEST + 1, LATEST, true),
        (u32::MAX, 0, true), (u32::MAX, LATEST, true), (1 << 31, LATEST, true), (1000, 999, true), (1000, 1000, false), (1000, 1001, false),
    ] {
        for last in [0, now / 2, now] {
            let mut made = two([0, 0]);
            put_number(&mut made.memory, PRESENT.last_time, last);
            made.set_entry(1, (expiry, 1));
            walks.expect_in(&made, u32::MAX, now, if held { &[(1, 0), (2, 1)] } else { &[(1, 0)] })?;
            made.set_entry(0, (expiry, 1));
            walks.expect_in(&made, u32::MAX, now, if held { &[(1, 0), (2, 1)] } else { &[] })?;
        }
    }
    Ok(())
}

/// Question 4 about the last time and the latest, whatever X is.
fn refused(walks: &mut Walks) -> Result<(), String> {
    for last in [0, 1, 1000, LATEST - 1, LATEST] {
        let mut made = two([0, 0]);
        put_number(&mut made.memory, PRESENT.last_time, last);
        walks.load(&made);
        for point in [0, last, LATEST, u32::MAX] {
            for now in [0, last.wrapping_sub(1), last, last + 1, LATEST - 1, LATEST, LATEST + 1, u32::MAX] {
                let right = if (last..=LATEST).contains(&now) { 0 } else { 4 };
                walks.expect_number(&Walk::new(point, now), right)?;
            }
        }
    }
    Ok(())
}
