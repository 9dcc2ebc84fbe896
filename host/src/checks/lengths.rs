//! Wrong lengths of each buffer, one at a time and with every kind.
use super::call::UNKNOWN;
use super::pair::Pair;
use super::situation::{situation, Questions, Situation, HELD};
use super::Checked;

/// The buffers in the order of the call, with the number that a wrong length gets.
const BUFFERS: [(usize, u32); 5] = [(0, 1), (1, 2), (2, 6), (3, 6), (4, 6)];

pub fn check(pair: &mut Pair) -> Checked {
    let start = pair.index;
    for kind in (1..=10).chain(UNKNOWN) {
        for held in HELD {
            for (buffer, number) in BUFFERS {
                let made = situation(kind, held, Questions::NONE, 0);
                let right = length(&made, buffer);
                for len in around(right) {
                    let made = resized(situation(kind, held, Questions::NONE, 0), buffer, len);
                    let wrong = if len == right { 0 } else { number };
                    let number = if UNKNOWN.contains(&kind) && !matches!(wrong, 1 | 2) { 3 } else { wrong };
                    pair.load(&made.memory, &made.disk);
                    pair.expect(&made.call, number)?;
                }
            }
        }
    }
    Ok(format!("lengths: {} calls", pair.index - start))
}

fn around(right: usize) -> Vec<usize> {
    let mut list = vec![0, 1, 31, 32, 33, 511, 512, 513, 543, 544, 545, 33_280, 3 * 33_280];
    list.extend([right.saturating_sub(1), right, right + 1, right + 64, right + 512]);
    list
}

fn length(made: &Situation, buffer: usize) -> usize {
    match buffer {
        0 => made.memory.len(),
        1 => made.disk.len(),
        2 => made.call.data.len(),
        3 => made.call.proof.len(),
        _ => made.call.answer_len,
    }
}

fn resized(mut made: Situation, buffer: usize, len: usize) -> Situation {
    match buffer {
        0 => made.memory.resize(len, 0),
        1 => made.disk.resize(len, 0),
        2 => made.call.data.resize(len, 7),
        3 => made.call.proof.resize(len, 7),
        _ => made.call.answer_len = len,
    }
    made
}
