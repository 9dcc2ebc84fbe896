//! How much stack the archive needs: a call runs on a painted piece of memory as its stack, and the
//! lowest byte that changed tells. (A thread would not do: asked for 16 KiB, it may get 24.)
use super::call::Call;
use super::lists::{box_of, List, NOW};
use super::situation::{situation, Questions, Situation, HELD};
use super::Checked;
use crate::archive;
use std::arch::asm;

pub const MOST: usize = 16 * 1024;
pub const PAINTED: usize = 256 * 1024;
const PAINT: u8 = 0xC5;

pub fn check() -> Checked {
    let mut paint = vec![PAINT; PAINTED];
    let mut answer = [0; 544];
    let mut shown = [0; 576];
    let mut most = 0;
    for (kind, held) in (1..=10).flat_map(|kind| HELD.map(|held| (kind, held))) {
        let Situation { mut memory, mut disk, call } = situation(kind, held, Questions::NONE, 0);
        let (block, now, value, data, proof) = (call.block, call.now, call.value, &call.data, &call.proof);
        let mut numbers = [9; 4];
        let used = used(&mut paint, &mut || {
            numbers[0] = archive::command(&mut memory, &mut disk, kind, block, now, value, data, proof, &mut answer);
            numbers[1] = archive::states(&mut memory, &disk, &[0; 256], now, &mut shown) as u32;
            numbers[2] = archive::format(&mut memory, &mut disk, 2, &answer[..32]);
            numbers[3] = archive::digest(&disk[..65_536], &mut answer[..32]);
        });
        if numbers != [0; 4] {
            return Err(format!("stack: kind {kind}, a list, formatting and the digest answered {numbers:?}"));
        }
        if used > MOST {
            return Err(format!("stack: kind {kind}, a list, formatting and the digest needed {used} bytes"));
        }
        most = most.max(used);
    }
    Ok(format!("{} bytes of stack", most.max(largest(&mut paint)?)))
}

/// Each kind to the last block of a box of 64 groups with another group's page held, and a list that names every group; and formatting.
fn largest(paint: &mut [u8]) -> Result<usize, String> {
    let (memory, mut disk) = box_of(64, 0);
    let every_group: Vec<u32> = (0..64).map(|group| 64 * group + group).collect();
    let list = List::new(&every_group, NOW);
    let (mut answer, mut shown, mut most) = ([0; 544], [0; 576], 0);
    for kind in 1..=10 {
        let mut memory = memory.clone();
        // The group, a free block, a frozen one.
        let block = match kind {
            3 => 63,
            4 => 4094,
            _ => 4095,
        };
        let Call { now, value, data, proof, .. } = Call::good(kind, block, NOW, 1, &memory, &disk);
        let mut numbers = [9; 3];
        let used = used(paint, &mut || {
            numbers[0] = archive::command(&mut memory, &mut disk, kind, block, now, value, &data, &proof, &mut answer);
            numbers[1] = archive::states(&mut memory, &disk, &list.blocks, NOW, &mut shown) as u32;
            numbers[2] = archive::format(&mut memory, &mut disk.clone(), 64, &[1; 32]);
        });
        if numbers != [0; 3] || used > MOST {
            return Err(format!("stack: 64 groups, kind {kind}, a list and formatting answered {numbers:?} and needed {used} bytes"));
        }
        most = most.max(used);
    }
    Ok(most)
}

/// The bytes of stack that `call` needs.
pub fn used(paint: &mut [u8], mut call: &mut dyn FnMut()) -> usize {
    paint.fill(PAINT);
    let end = paint.as_mut_ptr_range().end;
    let top = end.wrapping_sub(end as usize % 16);
    // SAFETY: `enter` gets what it takes, and a stack far larger than the archive needs, aligned as
    // its calling convention has it. The stack pointer is kept in a register that calls preserve.
    unsafe {
        asm!(
            "mov r12, rsp",
            "mov rsp, {top}",
            "call {enter}",
            "mov rsp, r12",
            top = in(reg) top,
            enter = in(reg) enter as extern "C" fn(&mut &mut dyn FnMut()),
            in("rdi") &mut call,
            out("r12") _,
            clobber_abi("C"),
        );
    }
    let untouched = paint.iter().position(|byte| *byte != PAINT).unwrap_or(paint.len());
    paint.len() - untouched
}

extern "C" fn enter(call: &mut &mut dyn FnMut()) {
    call();
}
