//! Each clause of a memory's validity, broken on its own, and met at its limits: question 1.
use super::super::call::LATEST;
use super::super::situation::{situation, Questions, NOW};
use super::super::validity::{changes, counts, numbers_of_groups, put_change, Change};
use super::super::versions::snapshot::Snapshot;
use super::super::Checked;
use super::walks::{Walk, Walks};
use super::POINT;

pub fn check(walks: &mut Walks) -> Checked {
    let before = walks.made;
    for held in [255, 1] {
        let of_counts = (0..=255).flat_map(|number| counts(held, number));
        changes(held).into_iter().chain(of_counts).try_for_each(|change| changed(walks, held, change))?;
    }
    numbers_of_groups(|memory, disk, valid| {
        walks.load(&Snapshot { state: Vec::new(), memory: memory.to_vec(), disk: disk.to_vec() });
        walks.expect_number(&Walk::new(POINT, 0), if valid { 0 } else { 1 })
    })?;
    Ok(format!("validity: {} walks", walks.made - before))
}

fn changed(walks: &mut Walks, held: u8, change: Change) -> Result<(), String> {
    let (_, _, _, valid) = change;
    let mut made = situation(1, held, Questions::NONE, 0);
    put_change(&mut made.memory, change);
    walks.load(&Snapshot { state: Vec::new(), memory: made.memory, disk: made.disk });
    let (now, number) = if valid { (LATEST, 0) } else { (NOW, 1) };
    walks.expect_number(&Walk::new(POINT, now), number)
}
