//! Inputs and printouts whose lengths are about those of likely buffers, with a line's every place at
//! a buffer's end.
use super::generate::{header, push_line, Maker};
use super::tester::{interpret, Tester};
use crate::checks::Checked;
use crate::random::Random;
use crate::script::{Line, PRINTED_HEADER};

const SMALL: [usize; 4] = [512, 1024, 2048, 4096];
const LARGE: [usize; 4] = [8192, 16_384, 32_768, 65_536];
/// What may stand behind an input of a given length.
const ENDS: [&[u8]; 7] = [b"", b"\n", b" ", b"1", b"1 0", b"x\n", b"0 7 0 0\n"];
const LONGEST_LINE: usize = 44;
/// Up to here a script has lines of all kinds, and then quick ones.
const MIXED: usize = 4096;

pub fn check(tester: &mut Tester, seed: u64) -> Checked {
    let mut random = Random::new(seed);
    let began = tester.runs;
    for limit in SMALL.into_iter().chain(LARGE) {
        for length in limit - 1..=limit + 1 {
            ends(tester, &mut random, length)?;
            printed_ends(tester, length)?;
        }
        let step = if limit <= MIXED { 1 } else { 5 };
        for before in (1..LONGEST_LINE).step_by(step) {
            crossed(tester, &mut random, limit, before)?;
        }
    }
    Ok(format!("{} lengths about those of buffers", tester.runs - began))
}

/// An input of this length, whole and with its last byte gone or changed, and some that go on.
fn ends(tester: &mut Tester, random: &mut Random, length: usize) -> Result<(), String> {
    let place = format!("input of {length} bytes");
    let script = input_of(random, length);
    for end in ENDS {
        tester.same(&[&script[..], end].concat(), &place)?;
    }
    let longer = input_of(random, length + 1);
    tester.same(&longer[..length], &place)?;
    for last in *b" x0\r\0" {
        let mut script = script.clone();
        script[length - 1] = last;
        tester.same(&script, &place)?;
    }
    Ok(())
}

/// A printout of this length, at the end of the input and before a bad line.
fn printed_ends(tester: &mut Tester, length: usize) -> Result<(), String> {
    let place = format!("printout of {length} bytes");
    let script = input_printed_in(length);
    if interpret(&script).len() != length {
        return Err(format!("{place}: it has another length"));
    }
    for end in [&b""[..], b"x\n", b"\n", b"0 7 0 0"] {
        tester.same(&[&script[..], end].concat(), &place)?;
    }
    Ok(())
}

/// A line that begins so many bytes before the limit and is good, or bad, with others after it.
fn crossed(tester: &mut Tester, random: &mut Random, limit: usize, before: usize) -> Result<(), String> {
    let place = format!("line from {before} bytes before {limit}");
    let good = input_of(random, limit - before);
    let lines: [&[u8]; 3] = [
        b"4294967295 4294967294 4294967293 4294967292\n",
        b"4294967295 4294967294 4294967293 4294967296\n",
        b"2 0 2147483647 7\n1 0 2147483647 7\n2 63 2147483647 1\n",
    ];
    for line in lines {
        tester.same(&[&good[..], line, b"10 1 2147483647 0\n"].concat(), &place)?;
    }
    Ok(())
}

/// A good script of exactly this length, its last newline counted.
fn input_of(random: &mut Random, length: usize) -> Vec<u8> {
    let mut maker = Maker::new(random);
    let mut script = header();
    while script.len() + 2 * LONGEST_LINE < length.min(MIXED) {
        push_line(&mut script, &maker.line());
    }
    fill(&mut script, length);
    script
}

/// A script whose printout has exactly this length.
fn input_printed_in(length: usize) -> Vec<u8> {
    let mut script = header();
    // A line of `fill` is printed as `0 B 0 3 0 0`, four bytes longer than itself.
    let mut left = length - (PRINTED_HEADER.len() + 1);
    while left > 0 {
        let printed = next_length(left, 10);
        let length = script.len() + printed - 4;
        fill(&mut script, length);
        left -= printed;
    }
    script
}

/// Fills up with lines `0 B 0 0`.
fn fill(script: &mut Vec<u8>, length: usize) {
    while script.len() < length {
        let digits = next_length(length - script.len(), 6) - 7;
        let block = 10u64.pow(digits as u32 - 1) as u32;
        push_line(script, &Line { kind: 0, block, now: 0, value: 0 });
    }
}

/// The length of the next line, after which nothing is left or enough for another. A line has the 1
/// to 10 digits of its B, `rest` other bytes and the newline.
fn next_length(left: usize, rest: usize) -> usize {
    let (least, most) = (rest + 2, rest + 11);
    if left <= most { left } else { most.min(left - least) }
}
