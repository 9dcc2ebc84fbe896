//! Lines of a right and of a wrong form, in every place of a script, with the printouts by hand.
use super::tester::Tester;
use super::{with_header, with_printed_header};
use crate::checks::Checked;

/// Lines that are bad wherever they stand.
const BAD: [&[u8]; 54] = [
    b" ",
    b"  ",
    b"   ",
    b"\r",
    b"\0",
    b"\t",
    b"1",
    b"1 0",
    b"1 0 1000",
    b"1 0 1000 ",
    b"1 0 1000 0 ",
    b"1 0 1000 0  ",
    b" 1 0 1000 0",
    b"1  0 1000 0",
    b"1 0  1000 0",
    b"1 0 1000  0",
    b"1 0 1000 0 0",
    b"1 0 1000 0 0 0",
    b"1 0 1000 0\r",
    b"\r1 0 1000 0",
    b"1\t0 1000 0",
    b"1 0 1000 0\t",
    b"1 0 1000 0\0",
    b"1\x000 1000 0",
    b"+1 0 1000 0",
    b"1 -0 1000 0",
    b"1 0 -1000 0",
    b"1 0 1000 +0",
    b"1 0 1000 -",
    b"1 0 1000 0.",
    b"1 0 1000 0.0",
    b"1 0 1000 1e3",
    b"1 0 1000 0x0",
    b"1 0 1000 1_0",
    b"1 0 1000 1,000",
    b"1,0,1000,0",
    b"1 0 1000 O",
    b"a 0 1000 0",
    b"1 0 1000 0a",
    b"1 0 1000 0 a",
    b"1 0 1000 0#",
    b"1 0 1000 0;1 0 1000 0",
    b"# 1 0 1000 0",
    b"1 0 1000\xA00",
    b"1 0 1000 \xD9\xA1",
    b"1 0 1000 0\xFF",
    b"4294967295 4294967295 4294967295 4294967295 ",
    b"4294967295 4294967295 4294967295 42949672950",
    b"4294967295 4294967295 4294967295 4294967295 0",
    b"4294967295 4294967295 4294967295 4294967295\r",
    b"4294967295 4294967295 4294967295 4294967295 and so on, for as long as one likes",
    b"kind block now value",
    b"kind block now answer state left",
    b"bad line 3",
];

/// Words that are no values, wherever they stand in a line.
const NO_VALUES: [&str; 25] = [
    "", "00", "01", "007", "0000000000", "00000000000", "04294967295", "4294967296", "4294967297", "4294967305",
    "4294968296", "4999999999", "5000000000", "8589934592", "9999999999", "10000000000", "10000000001", "42949672950",
    "42949672961", "99999999999", "18446744073709551615", "18446744073709551616", "18446744073709551617",
    "340282366920938463463374607431768211456", "100000000000000000000000000000000000000000000000000000000000000000000",
];

/// Right lines of unusual numbers, and how they are printed.
const RIGHT: [(&[u8], &[u8]); 12] = [
    (b"0 0 0 0", b"0 0 0 3 0 0"),
    (b"11 0 1000 0", b"11 0 1000 3 0 0"),
    (b"4294967295 4294967295 4294967295 4294967295", b"4294967295 4294967295 4294967295 3 0 0"),
    (b"4294967294 999999999 1000000000 4294967290", b"4294967294 999999999 1000000000 3 0 0"),
    (b"1 0 999 0", b"1 0 999 4 0 0"),
    (b"1 0 2147483648 0", b"1 0 2147483648 4 0 0"),
    (b"10 4294967295 1000 4294967295", b"10 4294967295 1000 0 0 0"),
    (b"1 4294967295 1000 0", b"1 4294967295 1000 5 0 0"),
    (b"2 1 1000 0", b"2 1 1000 0 0 -1000"),
    (b"2 0 1000 0", b"2 0 1000 0 1 500"),
    (b"3 1 1000 0", b"3 1 1000 5 0 0"),
    (b"4 1 1000 2147483648", b"4 1 1000 10 0 0"),
];

const EXAMPLE: &[u8] = b"4 0 1000 500\n5 0 1200 0\n4 0 1699 9\n2 0 1699 0\n4 0 1700 9\n5 64 1700 0\n";
const EXAMPLE_PRINTED: &[u8] =
    b"4 0 1000 0 0 0\n5 0 1200 0 0 0\n4 0 1699 9 0 0\n2 0 1699 0 2 2\n4 0 1700 9 0 0\n5 64 1700 5 0 0\n";

/// The longest times left: the expiry is 4,294,967,295, then at the end of time, and a blank entry's.
const EXTREMES: &[u8] =
    b"4 1 1000 500\n5 1 1200 0\n6 1 1200 4294965594\n2 1 1200 0\n2 1 2147483647 0\n2 2 2147483647 0\n";
const EXTREMES_PRINTED: &[u8] = b"4 1 1000 0 0 0\n5 1 1200 0 0 0\n6 1 1200 0 0 0\n2 1 1200 0 2 4294966095\n\
    2 1 2147483647 0 2 2147483648\n2 2 2147483647 0 0 -2147483647\n";

pub fn check(tester: &mut Tester) -> Checked {
    let began = tester.runs;
    tester.expect(&with_header(EXTREMES), &with_printed_header(EXTREMES_PRINTED), "the longest times left")?;
    tester.expect(&with_header(EXAMPLE), &with_printed_header(EXAMPLE_PRINTED), "document 01's example")?;
    right_lines(tester)?;
    empty_lines(tester)?;
    for line in BAD {
        bad_line(tester, line)?;
    }
    for word in NO_VALUES {
        for place in 0..4 {
            let mut words = ["1", "0", "1000", "0"];
            words[place] = word;
            bad_line(tester, words.join(" ").as_bytes())?;
        }
    }
    Ok(format!("{} forms of lines", tester.runs - began))
}

/// The line as the last one, with and without its newline, and before another.
fn right_lines(tester: &mut Tester) -> Result<(), String> {
    for (line, printed) in RIGHT {
        let place = format!("line \"{}\"", line.escape_ascii());
        let script = with_header(&[b"4 0 1000 500\n", line].concat());
        let right = with_printed_header(&[b"4 0 1000 0 0 0\n", printed, b"\n"].concat());
        tester.expect(&script, &right, &place)?;
        tester.expect(&[&script[..], b"\n"].concat(), &right, &place)?;
        let script = [&script[..], b"\n2 0 1000 7\n"].concat();
        tester.expect(&script, &[&right[..], b"2 0 1000 0 1 500\n"].concat(), &place)?;
    }
    Ok(())
}

/// Nothing after the last newline is no line, and a newline more is an empty one.
fn empty_lines(tester: &mut Tester) -> Result<(), String> {
    let cases: [(&[u8], &[u8]); 5] = [
        (b"1 0 1000 0\n\n", b"1 0 1000 0 0 0\nbad line 3\n"),
        (b"1 0 1000 0\n\n\n", b"1 0 1000 0 0 0\nbad line 3\n"),
        (b"1 0 1000 0\n\n1 0 1001 0\n", b"1 0 1000 0 0 0\nbad line 3\n"),
        (b"\n1 0 1000 0\n", b"bad line 2\n"),
        (b"\n", b"bad line 2\n"),
    ];
    for (lines, printed) in cases {
        let place = format!("lines \"{}\"", lines.escape_ascii());
        tester.expect(&with_header(lines), &with_printed_header(printed), &place)?;
    }
    Ok(())
}

/// The line as the second and the third one, before another, as the last one, and without newline.
fn bad_line(tester: &mut Tester, line: &[u8]) -> Result<(), String> {
    let place = format!("bad line \"{}\"", line.escape_ascii());
    let right = with_printed_header(b"4 0 1000 0 0 0\nbad line 3\n");
    for end in [&b""[..], b"\n", b"\n2 0 1000 0\n"] {
        tester.expect(&with_header(&[b"4 0 1000 500\n", line, end].concat()), &right, &place)?;
    }
    let script = with_header(&[line, b"\n2 0 1000 0\n"].concat());
    tester.expect(&script, &with_printed_header(b"bad line 2\n"), &place)
}
