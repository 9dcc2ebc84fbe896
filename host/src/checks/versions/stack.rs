//! How much stack the archive's version store needs.
use super::super::stack::{used, MOST, PAINTED};
use super::super::Checked;
use super::{box_of, set_newest, set_records, some_records, started, BLANK, FROZEN, NOW};
use crate::archive;

pub fn check() -> Checked {
    let mut paint = vec![0; PAINTED];
    let (mut memory, mut disk) = box_of(64, BLANK);
    super::set_entry(&mut disk, 4000, FROZEN);
    let mut state = started(500);
    set_newest(&mut state, 255, 4000);
    set_records(&mut state, &some_records(62));
    let mut numbers = [9; 4];
    let most = used(&mut paint, &mut || {
        numbers[0] = archive::versions_put(&mut state, &mut memory, &mut disk, 255, NOW, &[7; 512]) as u32;
        numbers[1] = archive::versions_put(&mut state, &mut memory, &mut disk, 255, NOW, &[8; 512]) as u32;
        numbers[2] = archive::versions_flush(&mut state, &mut memory, &mut disk, NOW);
        numbers[3] = archive::versions_block(&state, 255) as u32 | archive::versions_start(&mut state, 500);
    });
    if numbers != [0; 4] || most > MOST {
        return Err(format!("stack: puts, flush, block and start answered {numbers:?} and needed {most} bytes"));
    }
    Ok(format!("{most} bytes of stack"))
}
