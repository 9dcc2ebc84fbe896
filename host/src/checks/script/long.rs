//! Very long lines and scripts, with the printouts by hand.
use super::tester::Tester;
use super::{with_header, with_printed_header};
use crate::checks::Checked;
use crate::random::Random;
use std::fmt::Write;

const LONG: usize = 1_000_000;
const LONGEST: usize = 10_000_000;
const LINES: usize = 100_000;

pub fn check(tester: &mut Tester) -> Checked {
    let began = tester.runs;
    long_headers(tester)?;
    long_lines(tester)?;
    many_lines(tester)?;
    Ok(format!("{} inputs of up to {LONGEST} bytes", tester.runs - began))
}

fn long_headers(tester: &mut Tester) -> Result<(), String> {
    for byte in [b'k', b'\n', 0] {
        tester.expect(&vec![byte; LONG], b"bad line 1\n", &format!("{LONG} times byte {byte}"))?;
    }
    let mut header = with_header(b"");
    header.pop();
    header.resize(LONG, b' ');
    tester.expect(&header, b"bad line 1\n", "a header with spaces behind it")
}

/// A line of one byte over and over, alone and where a value stands.
fn long_lines(tester: &mut Tester) -> Result<(), String> {
    let lines = b"079 \n\0".map(|byte| (byte, LONG));
    for (byte, length) in lines.into_iter().chain([(b'1', LONGEST)]) {
        let long = vec![byte; length];
        let place = format!("line of {length} times byte {byte}");
        tester.expect(&with_header(&long), &with_printed_header(b"bad line 2\n"), &place)?;
        let script = with_header(&[b"1 0 5 0\n1 0 5 ", &long[..], b"\n1 0 5 0\n"].concat());
        tester.expect(&script, &with_printed_header(b"1 0 5 0 0 0\nbad line 3\n"), &place)?;
    }
    let values = b"1 ".repeat(LONG / 2);
    tester.expect(&with_header(&values), &with_printed_header(b"bad line 2\n"), "a line of very many values")
}

/// Many good lines, then the end or garbage. Each entry is blank, so its time left is minus now.
fn many_lines(tester: &mut Tester) -> Result<(), String> {
    let mut lines = String::new();
    let mut printed = String::new();
    for now in 0..LINES {
        let block = now % 64;
        writeln!(lines, "2 {block} {now} 0").unwrap();
        writeln!(printed, "2 {block} {now} 0 0 {}", -(now as i64)).unwrap();
    }
    let script = with_header(lines.as_bytes());
    let mut right = with_printed_header(printed.as_bytes());
    tester.expect(&script, &right, "many lines")?;
    let mut garbage = vec![0; 1_000_000];
    Random::new(5).fill(&mut garbage);
    garbage[0] = b'x';
    right.extend(format!("bad line {}\n", LINES + 2).bytes());
    tester.expect(&[script, garbage].concat(), &right, "many lines and garbage")
}
