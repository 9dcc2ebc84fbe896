//! How much stack the archive's migration needs.
use super::super::stack::{used, MOST, PAINTED};
use super::super::Checked;
use super::{old_memory, NONE};
use crate::archive;

pub fn check() -> Checked {
    let mut paint = vec![0; PAINTED];
    let [held, none] = [15, NONE].map(|held| old_memory(16, held));
    let mut memory = [0xCC; 808];
    let mut numbers = [9; 3];
    let most = used(&mut paint, &mut || {
        numbers[0] = archive::migrate(&held, &mut memory);
        numbers[1] = archive::migrate(&none, &mut memory);
        numbers[2] = archive::migrate(&none[1..], &mut memory);
    });
    if numbers != [0, 0, 1] || most > MOST {
        return Err(format!("stack: three migrations answered {numbers:?} and needed {most} bytes"));
    }
    Ok(format!("{most} bytes of stack"))
}
