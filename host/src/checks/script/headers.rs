//! Inputs that end in or before their header line, and wrong headers, with the printouts by hand.
use super::tester::Tester;
use super::with_printed_header;
use crate::checks::Checked;
use crate::script::HEADER;

const BAD: &[u8] = b"bad line 1\n";

const WRONG: [&[u8]; 29] = [
    b"",
    b"\n",
    b"\n\n",
    b" ",
    b" \n",
    b"\r\n",
    b"\0",
    b"\nkind block now value\n",
    b"\xEF\xBB\xBFkind block now value\n",
    b" kind block now value\n",
    b"kind block now value \n",
    b"kind block now value ",
    b"kind block now value\r",
    b"kind block now value\r\n4 0 1000 500\r\n",
    b"kind block now value\r\n4 0 1000 500\n",
    b"kind block now value\0\n4 0 1000 500\n",
    b"kind block now value\x0b4 0 1000 500\n",
    b"kind block now value4 0 1000 500\n",
    b"kind block now value 4 0 1000 500\n",
    b"kind  block now value\n",
    b"kind\tblock now value\n",
    b"kind,block,now,value\n",
    b"kindblocknowvalue\n",
    b"Kind Block Now Value\n",
    b"KIND BLOCK NOW VALUE\n",
    b"kind block value now\n",
    b"kind block now answer state left\n4 0 1000 0 0 0\n",
    b"4 0 1000 500\n5 0 1200 0\n",
    b"kind block now value\nkind block now value",
];

pub fn check(tester: &mut Tester) -> Checked {
    let header = HEADER.as_bytes();
    let began = tester.runs;
    tester.expect(header, &with_printed_header(b""), "the header without its newline")?;
    tester.expect(&[header, b"\n"].concat(), &with_printed_header(b""), "the header alone")?;
    tester.expect(&[header, b"\n\n"].concat(), &with_printed_header(b"bad line 2\n"), "an empty second line")?;
    let (last, wrong) = WRONG.split_last().unwrap();
    tester.expect(last, &with_printed_header(b"bad line 2\n"), "the header twice")?;
    for script in wrong {
        tester.expect(script, BAD, &format!("header \"{}\"", script.escape_ascii()))?;
    }
    for at in 0..header.len() {
        cut(tester, &header[..at])?;
        for change in [0x01, 0x20, 0x80] {
            let mut changed = [header, b"\n4 0 1000 500\n"].concat();
            changed[at] ^= change;
            tester.expect(&changed, BAD, &format!("header with byte {at} changed by {change}"))?;
        }
        let removed = [&header[..at], &header[at + 1..], b"\n4 0 1000 500\n"].concat();
        tester.expect(&removed, BAD, &format!("header without byte {at}"))?;
        let doubled = [&header[..=at], &header[at..], b"\n4 0 1000 500\n"].concat();
        tester.expect(&doubled, BAD, &format!("header with byte {at} doubled"))?;
    }
    Ok(format!("{} headers", tester.runs - began))
}

/// The header's beginning, at the end of the input and as a line.
fn cut(tester: &mut Tester, part: &[u8]) -> Result<(), String> {
    let place = format!("{} bytes of the header", part.len());
    tester.expect(part, BAD, &place)?;
    tester.expect(&[part, b"\n4 0 1000 500\n"].concat(), BAD, &place)
}
