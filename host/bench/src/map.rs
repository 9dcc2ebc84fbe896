//! What a block's group and place cost by themselves, in two forms: the quotient and the remainder by the size of a
//! group, and a shift and a mask. Each form is a function that the compiler does not see through, over all blocks of a box of
//! 64 groups, each made from the group and place of the one before, in one process and interleaved; the time is a ratio to that of the
//! quotient and the remainder by 64. Where the size is 64 when it is compiled, a compiler may make the same of both; so the two are there
//! again with a size that is only known when it runs.
use crate::median;
use std::hint::black_box;
use std::time::Instant;

const ROUNDS: usize = 2001;
const BLOCKS: u32 = 4096;

/// A block's number and the size of a group, or its bits: the block's group and its place.
type Map = fn(u32, u32) -> (u32, u32);

const FORMS: [(&str, Map, u32); 4] = [
    ("quotient and remainder by 64", |block, _| (block / 64, block % 64), 64),
    ("shift by 6 and mask with 63", |block, _| (block >> 6, block & 63), 6),
    ("quotient and remainder by a size", |block, size| (block / size, block % size), 64),
    ("shift by its bits and mask", |block, bits| (block >> bits, block & ((1 << bits) - 1)), 6),
];

/// Nanoseconds for one block.
fn time(map: Map, size: u32) -> f64 {
    let mut block = 0;
    let began = Instant::now();
    for _ in 0..BLOCKS {
        let (group, place) = black_box(map)(block, size);
        block = 64 * group + place + 1;
    }
    let passed = began.elapsed().as_nanos() as f64;
    assert_eq!(block, BLOCKS, "not the next block");
    passed / BLOCKS as f64
}

pub fn run() {
    let mut ratios = FORMS.map(|_| Vec::new());
    for _ in 0..ROUNDS {
        let times = FORMS.map(|(_, map, size)| time(map, black_box(size)));
        for (ratios, time) in ratios.iter_mut().zip(times) {
            ratios.push(time / times[0]);
        }
    }
    println!("| a block's group and place | time / by quotient and remainder by 64 |\n|---|---|");
    for ((name, _, _), ratios) in FORMS.iter().zip(&mut ratios) {
        println!("| {name} | {:.2} |", median(ratios));
    }
}
