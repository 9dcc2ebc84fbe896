//! The script program, written from document 01 and apart from the Rattle code: lines of four
//! numbers drive the host's controller, with a box of one group and a zero salt.
use crate::controller::{self, Command, Memory, OwnDigest, PRESENT};
use std::io::{self, BufRead, Write};

pub const HEADER: &str = "kind block now value";
pub const PRINTED_HEADER: &str = "kind block now answer state left";

const MEMORY: usize = Memory::<PRESENT>::SIZE;
const DISK: usize = 33_280;
const ANSWER: usize = 544;

/// The numbers of a script's line.
#[derive(Clone, Copy)]
pub struct Line {
    pub kind: u32,
    pub block: u32,
    pub now: u32,
    pub value: u32,
}

/// What is printed of a line behind its kind, block and time.
pub struct Outcome {
    pub number: u32,
    pub state: u8,
    pub left: i64,
}

/// Runs a script to its end or its first bad line.
pub fn run(input: &mut impl BufRead, output: &mut impl Write) -> io::Result<()> {
    let mut line = Vec::new();
    let mut place = 1u64;
    if !next_line(input, &mut line)? || line != HEADER.as_bytes() {
        return bad_line(output, place);
    }
    writeln!(output, "{PRINTED_HEADER}")?;
    let mut depot_box = DepotBox::formatted();
    while next_line(input, &mut line)? {
        place += 1;
        let Some(sent) = parse(&line) else {
            return bad_line(output, place);
        };
        let Outcome { number, state, left } = depot_box.send(&sent);
        let Line { kind, block, now, .. } = sent;
        writeln!(output, "{kind} {block} {now} {number} {state} {left}")?;
    }
    output.flush()
}

/// Reads a line without its newline; false where nothing is left.
fn next_line(input: &mut impl BufRead, line: &mut Vec<u8>) -> io::Result<bool> {
    line.clear();
    let read = input.read_until(b'\n', line)?;
    if line.last() == Some(&b'\n') {
        line.pop();
    }
    Ok(read > 0)
}

fn bad_line(output: &mut impl Write, place: u64) -> io::Result<()> {
    writeln!(output, "bad line {place}")?;
    output.flush()
}

/// The numbers of a line that has the form: four values with one space between.
fn parse(line: &[u8]) -> Option<Line> {
    let mut words = line.split(|byte| *byte == b' ');
    let mut next = || parse_value(words.next()?);
    let parsed = Line { kind: next()?, block: next()?, now: next()?, value: next()? };
    words.next().is_none().then_some(parsed)
}

/// A value: digits without a leading zero, 4,294,967,295 at most.
fn parse_value(word: &[u8]) -> Option<u32> {
    let leading_zero = word.len() > 1 && word[0] == b'0';
    if word.is_empty() || word.len() > 10 || leading_zero {
        return None;
    }
    let mut value = 0u64;
    for byte in word {
        if !byte.is_ascii_digit() {
            return None;
        }
        value = 10 * value + u64::from(byte - b'0');
    }
    u32::try_from(value).ok()
}

/// The box, with the buffers of a command.
pub struct DepotBox {
    memory: [u8; MEMORY],
    disk: Vec<u8>,
    data: Vec<u8>,
    proof: [u8; ANSWER],
    answer: [u8; ANSWER],
}

impl DepotBox {
    pub fn formatted() -> DepotBox {
        let (mut memory, mut disk) = ([0; MEMORY], vec![0; DISK]);
        assert_eq!(controller::format::<PRESENT>(&mut memory, &mut disk, 1, &[0; 32]), 0);
        DepotBox { memory, disk, data: Vec::new(), proof: [0; ANSWER], answer: [0; ANSWER] }
    }

    pub fn last_time(&self) -> u32 {
        self.fields().last_time()
    }

    /// The updates to the held page.
    pub fn updates(&self) -> u8 {
        self.fields().updates()
    }

    fn fields(&self) -> &Memory<PRESENT> {
        Memory::of(&self.memory).expect("a memory of its size")
    }

    /// Sends a line's command with the data and the proof that its kind takes.
    pub fn send(&mut self, line: &Line) -> Outcome {
        let Line { kind, block, now, value } = *line;
        let update = matches!(kind, controller::WRITE | controller::UNFREEZE | controller::INCREMENT);
        if update {
            self.get_page();
        }
        let data_len = match kind {
            controller::WRITE => 512,
            controller::NEW_SALT => 32,
            _ => 0,
        };
        self.data.clear();
        self.data.resize(data_len, (value % 256) as u8);
        let proof: &[u8] = if update { &self.proof } else { &[] };
        let command = Command { kind, block, now, value, data: &self.data, proof };
        let number = controller::command::<PRESENT, OwnDigest>(&mut self.memory, &mut self.disk, &command, &mut self.answer);
        let (state, left) = if kind == controller::ENTRY && number == 0 { self.answered_entry() } else { (0, 0) };
        Outcome { number, state, left }
    }

    /// Gets page 0 with its tag at the last time.
    fn get_page(&mut self) {
        let (kind, now) = (controller::PAGE, self.last_time());
        let command = Command { kind, block: 0, now, value: 0, data: &[], proof: &[] };
        let number = controller::command::<PRESENT, OwnDigest>(&mut self.memory, &mut self.disk, &command, &mut self.proof);
        assert_eq!(number, 0);
    }

    /// State and time left as an accepted kind 2 answers them.
    fn answered_entry(&self) -> (u8, i64) {
        (self.answer[16], i64::from_le_bytes(self.answer[8..16].try_into().unwrap()))
    }
}
