//! How much stack the archive's recovery needs.
use super::super::stack::{used, MOST, PAINTED};
use super::super::versions::snapshot::Snapshot;
use super::super::versions::NOW;
use super::super::Checked;
use super::{POINT, RESULT};
use crate::archive;

/// A walk over every block of a box of 64 groups with a page held, and one that is refused.
pub fn check() -> Checked {
    let mut paint = vec![0; PAINTED];
    let mut made = Snapshot::empty(64);
    (0..4096).for_each(|block| made.log(block, &[(block % 256, block); 63], block as u64 + 1));
    made.hold(3);
    let mut result = [0; RESULT];
    let mut numbers = [9; 2];
    let most = used(&mut paint, &mut || {
        numbers[0] = archive::recover(&made.memory, &made.disk, POINT, NOW, &mut result);
        numbers[1] = archive::recover(&made.memory, &made.disk, POINT, 0, &mut result);
    });
    if numbers != [0, 4] || most > MOST {
        return Err(format!("stack: two walks answered {numbers:?} and needed {most} bytes"));
    }
    Ok(format!("{most} bytes of stack"))
}
