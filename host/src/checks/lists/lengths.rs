//! Lists of every number of bytes up to some more than 64 numbers have, with answers around the right
//! length; and wrong lengths of memory and disk.
use super::super::call::GROUP;
use super::super::pair::Pair;
use super::super::Checked;
use super::{box_of, groups_named, List, NONE, NOW};

/// Some are right where only the low bits of the length or of the count are looked at.
const LARGER: [usize; 12] = [268, 272, 508, 512, 516, 1024, 1028, 1280, 2304, 4096, 65_540, 4 * 65_537];

pub fn check(pair: &mut Pair) -> Checked {
    let start = pair.index;
    for held in [NONE, 1] {
        let (memory, disk) = box_of(2, held);
        pair.load(&memory, &disk);
        for bytes in (0..=264).chain(LARGER) {
            sized(pair, bytes)?;
        }
        for len in [0, 1, 292, 296, 616, 807, 808, 809, 810, 1616] {
            let mut resized = memory.clone();
            resized.resize(len, 0);
            whole(pair, &resized, &disk, if len == 808 { Ok(2) } else { Err(1) })?;
        }
        let right = disk.len();
        for len in [0, 1, 512, GROUP, right - 512, right - 1, right, right + 1, right + 512, right + GROUP] {
            let mut resized = disk.clone();
            resized.resize(len, 0);
            whole(pair, &memory, &resized, if len == right { Ok(2) } else { Err(2) })?;
        }
    }
    Ok(format!("lengths of lists: {} lists", pair.index - start))
}

/// A list of so many bytes, with answers of several lengths.
fn sized(pair: &mut Pair, bytes: usize) -> Result<(), String> {
    let numbers: Vec<u32> = (0..=bytes as u32 / 4).map(|i| i * 37 % 128).collect();
    let mut list = List::new(&numbers, NOW);
    list.blocks.truncate(bytes);
    let n = bytes / 4;
    let around = [9 * n, 9 * n + 1, (9 * n).saturating_sub(1), 9 * n + 9, 8 * n, 10 * n, n, bytes];
    for answer_len in around.into_iter().chain([0, 9, 544, 576, 577, 585, 9 * n + 256, 9 * n + 65_536]) {
        list.answer_len = answer_len;
        let right = if !bytes.is_multiple_of(4) || !(1..=64).contains(&n) {
            Err(12)
        } else if answer_len != 9 * n {
            Err(6)
        } else {
            Ok(groups_named(list.numbers()))
        };
        pair.expect_list(&list, right)?;
    }
    Ok(())
}

/// A list of two groups to a box of these bytes.
fn whole(pair: &mut Pair, memory: &[u8], disk: &[u8], right: Result<u32, u32>) -> Result<(), String> {
    pair.load(memory, disk);
    pair.expect_list(&List::new(&[127, 0, 64], NOW), right)
}
