//! Wrong lengths of each buffer.
use super::super::versions::snapshot::Snapshot;
use super::super::versions::NOW;
use super::super::Checked;
use super::walks::{Walk, Walks};
use super::{POINT, RESULT};

pub fn check(walks: &mut Walks) -> Checked {
    let before = walks.made;
    let mut right = Snapshot::empty(2);
    right.log(0, &[(7, 0)], 1);
    walks.load(&right);
    for result_len in (0..=RESULT + 40).chain([1280, 2048, 4096, 65_536]) {
        let walk = Walk { result_len, ..Walk::new(POINT, NOW) };
        walks.expect_number(&walk, if result_len == RESULT { 0 } else { 6 })?;
    }
    for len in (0..=900).chain([1024, 1616, 4096]) {
        buffers(walks, &right, len, 66_560)?;
    }
    for len in [0, 1, 511, 512, 33_279, 33_280, 33_281, 66_048, 66_559, 66_560, 66_561, 67_072, 99_840, 532_480, 2_129_920] {
        buffers(walks, &right, 808, len)?;
    }
    told(walks, &right)?;
    Ok(format!("lengths: {} walks", walks.made - before))
}

/// Memory and disk of these lengths.
fn buffers(walks: &mut Walks, right: &Snapshot, memory_len: usize, disk_len: usize) -> Result<(), String> {
    let Snapshot { mut memory, mut disk, .. } = right.clone();
    memory.resize(memory_len, 0);
    disk.resize(disk_len, 0);
    walks.load(&Snapshot { state: Vec::new(), memory, disk });
    let number = [(memory_len == 808, 1), (disk_len == 66_560, 2)].iter().find(|(yes, _)| !yes).map_or(0, |(_, number)| *number);
    walks.expect_number(&Walk::new(POINT, NOW), number)
}

/// Buffers that are right, and told to be shorter or longer.
fn told(walks: &mut Walks, right: &Snapshot) -> Result<(), String> {
    walks.load(right);
    for off in (1..=64).chain([100, 128]) {
        for len in [808 - off, 808 + off] {
            walks.expect_number(&Walk { memory_len: Some(len), ..Walk::new(POINT, NOW) }, 1)?;
        }
        for len in [66_560 - off, 66_560 + off] {
            walks.expect_number(&Walk { disk_len: Some(len), ..Walk::new(POINT, NOW) }, 2)?;
        }
    }
    Ok(())
}
