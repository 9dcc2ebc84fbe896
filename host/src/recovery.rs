//! Recovery, request Q-6 of document 02: each part's block as of a time X, from the version store's log, written from the
//! papers alone and apart from the Rattle code. It reads the box and alters nothing but the result.
#[cfg(test)]
mod tests;

use crate::controller::Blocks;

const PARTS: usize = 256;
const RESULT_SIZE: usize = 4 * PARTS;
const GROUP_DATA: usize = 64;
/// A log block: records of part and block, 4 bytes each, and the pointer to the next one.
const RECORD_SIZE: usize = 8;
const POINTER: usize = 63 * RECORD_SIZE;

type Found = [[u8; 4]; PARTS];
/// Which blocks were walked, by their groups and places.
type Walked<const COUNTS: usize> = [[bool; GROUP_DATA]; COUNTS];

/// Fills the result with each part's block as of the time `point`, FF FF FF FF for none: 0, or the number of the question that said no.
pub fn recover<const COUNTS: usize>(memory: &[u8], disk: &[u8], point: u32, now: u32, result: &mut [u8]) -> u32 {
    let blocks = match Blocks::<COUNTS>::ask(memory, disk, now) {
        Ok(blocks) => blocks,
        Err(number) => return number,
    };
    if result.len() != RESULT_SIZE {
        return 6;
    }
    result.fill(0xFF);
    walk(&blocks, point, result.as_chunks_mut().0.try_into().unwrap());
    0
}

/// Takes the records of the log from block 0 on, up to the first block at which the walk stops.
fn walk<const COUNTS: usize>(blocks: &Blocks<COUNTS>, point: u32, found: &mut Found) {
    let mut walked = [[false; GROUP_DATA]; COUNTS];
    let mut next = 0;
    // Block 0 has no parent, and nothing is written before 0.
    let mut parent = 0;
    while let Some((block, written)) = log_block(blocks, next, parent, point, &mut walked) {
        let (records, pointer) = blocks.content(block).split_at(POINTER);
        take(blocks, point, records.as_chunks().0, found);
        next = u64::from_le_bytes(pointer.try_into().unwrap());
        parent = written;
    }
}

/// The block that a pointer names, with its time of write; none if it is out of range, free, written after the point or before its
/// parent, or already walked. It is walked now.
#[inline]
fn log_block<const COUNTS: usize>(
    blocks: &Blocks<COUNTS>,
    pointer: u64,
    parent: u32,
    point: u32,
    walked: &mut Walked<COUNTS>,
) -> Option<(u32, u32)> {
    let block = u32::try_from(pointer).ok()?;
    let written = blocks.written(block).filter(|written| (parent..=point).contains(written))?;
    let walked = &mut walked[block as usize / GROUP_DATA % COUNTS][block as usize % GROUP_DATA];
    (!std::mem::replace(walked, true)).then_some((block, written))
}

/// For each part the last record counts whose block is in range, not free and written by the point.
#[inline]
fn take<const COUNTS: usize>(blocks: &Blocks<COUNTS>, point: u32, records: &[[u8; RECORD_SIZE]], found: &mut Found) {
    for record in records {
        let [part, block] = [0, 4].map(|at| u32::from_le_bytes(record[at..at + 4].try_into().unwrap()));
        if (part as usize) < PARTS && blocks.written(block).is_some_and(|written| written <= point) {
            found[part as usize] = block.to_le_bytes();
        }
    }
}
