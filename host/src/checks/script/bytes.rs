//! Every byte in the places where some bytes are right.
use super::tester::Tester;
use super::{with_header, with_printed_header};
use crate::checks::Checked;

pub fn check(tester: &mut Tester) -> Checked {
    for byte in 0..=255 {
        as_value(tester, byte)?;
        between_values(tester, byte)?;
        behind_line(tester, byte)?;
        after_header(tester, byte)?;
    }
    Ok(String::from("all bytes in 4 places"))
}

/// `10 ? 7 0`: a digit is right.
fn as_value(tester: &mut Tester, byte: u8) -> Result<(), String> {
    let script = with_header(&[b"10 ", &[byte][..], b" 7 0\n1 0 8 0\n"].concat());
    let right = match byte {
        b'0'..=b'9' => with_printed_header(format!("10 {} 7 0 0 0\n1 0 8 0 0 0\n", byte - b'0').as_bytes()),
        _ => with_printed_header(b"bad line 2\n"),
    };
    tester.expect(&script, &right, &format!("byte {byte} as a value"))
}

/// `10 5?7 0`: a space is right.
fn between_values(tester: &mut Tester, byte: u8) -> Result<(), String> {
    let script = with_header(&[b"10 0 7 0\n10 5", &[byte][..], b"7 0\n1 0 8 0\n"].concat());
    let right = match byte {
        b' ' => with_printed_header(b"10 0 7 0 0 0\n10 5 7 0 0 0\n1 0 8 0 0 0\n"),
        _ => with_printed_header(b"10 0 7 0 0 0\nbad line 3\n"),
    };
    tester.expect(&script, &right, &format!("byte {byte} between values"))
}

/// `10 5 7 1?` at the end of the input: a digit or a newline is right.
fn behind_line(tester: &mut Tester, byte: u8) -> Result<(), String> {
    let script = with_header(&[b"10 5 7 1", &[byte][..]].concat());
    let right = match byte {
        b'0'..=b'9' | b'\n' => with_printed_header(b"10 5 7 0 0 0\n"),
        _ => with_printed_header(b"bad line 2\n"),
    };
    tester.expect(&script, &right, &format!("byte {byte} behind a line"))
}

/// The header and the byte: a newline is right.
fn after_header(tester: &mut Tester, byte: u8) -> Result<(), String> {
    let mut script = with_header(b"");
    script.pop();
    script.push(byte);
    let right = if byte == b'\n' { with_printed_header(b"") } else { b"bad line 1\n".to_vec() };
    tester.expect(&script, &right, &format!("byte {byte} after the header"))
}
