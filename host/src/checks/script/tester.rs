//! The program under test beside the interpreter: both get a script, and what they print is compared
//! byte by byte.
use super::program::{Program, Ran};
use super::seen::Seen;
use crate::script;
use std::fs;

/// How much of a printed line is told.
const TOLD: usize = 80;
/// How much more of the printout is taken than is right, so that it can be told.
const MORE: usize = 200;

pub struct Tester {
    program: Program,
    seed: u64,
    /// How often the program was run.
    pub runs: usize,
    /// What the generated scripts have led to.
    pub seen: Seen,
}

impl Tester {
    pub fn new(seed: u64) -> Result<Tester, String> {
        Ok(Tester { program: Program::find()?, seed, runs: 0, seen: Seen::default() })
    }

    /// Both print the same, which is given back.
    pub fn same(&mut self, script: &[u8], place: &str) -> Result<Vec<u8>, String> {
        self.same_in_pieces(script, &[], place)
    }

    /// The same, with the script fed in pieces.
    pub fn same_in_pieces(&mut self, script: &[u8], pieces: &[usize], place: &str) -> Result<Vec<u8>, String> {
        let right = interpret(script);
        self.check_program(script, pieces, &right, place)?;
        Ok(right)
    }

    /// Both print this.
    pub fn expect(&mut self, script: &[u8], right: &[u8], place: &str) -> Result<(), String> {
        if let Some(difference) = difference(&interpret(script), right) {
            return Err(self.keep(script, &format!("{place}: the interpreter: {difference}")));
        }
        self.check_program(script, &[], right, place)
    }

    fn check_program(&mut self, script: &[u8], pieces: &[usize], right: &[u8], place: &str) -> Result<(), String> {
        self.runs += 1;
        let found = match self.program.run(script, pieces, right.len() + MORE) {
            Ok(ran) => difference(&ran.printed, right).or(bad_end(&ran, right)),
            Err(failure) => Some(failure),
        };
        match found {
            None => Ok(()),
            Some(difference) => Err(self.keep(script, &format!("{place}: {difference}"))),
        }
    }

    /// Leaves the script in a file, and says so.
    fn keep(&self, script: &[u8], failure: &str) -> String {
        let path = std::env::temp_dir().join(format!("sockjade-seed-{}-run-{}.stdin", self.seed, self.runs));
        match fs::write(&path, script) {
            Ok(()) => format!("{failure}; the script is in {}", path.display()),
            Err(_) => failure.to_string(),
        }
    }
}

pub fn interpret(mut script: &[u8]) -> Vec<u8> {
    let mut printed = Vec::new();
    script::run(&mut script, &mut printed).expect("a vector takes all");
    printed
}

/// The first line in which two printouts differ.
pub fn difference(printed: &[u8], right: &[u8]) -> Option<String> {
    if printed == right {
        return None;
    }
    let mut lines = printed.split_inclusive(is_newline);
    for (place, right) in (1..).zip(right.split_inclusive(is_newline)) {
        match lines.next() {
            None => return Some(format!("line {place} of the printout is missing: {}", told(right))),
            Some(line) if line != right => {
                return Some(format!("line {place} of the printout is {} instead of {}", told(line), told(right)));
            }
            Some(_) => {}
        }
    }
    Some(format!("the printout goes on: {}", told(lines.next().unwrap_or_default())))
}

fn is_newline(byte: &u8) -> bool {
    *byte == b'\n'
}

fn told(line: &[u8]) -> String {
    format!("\"{}\"", line[..line.len().min(TOLD)].escape_ascii())
}

/// A run that a signal ended, or one without a bad line that did not end well.
fn bad_end(ran: &Ran, right: &[u8]) -> Option<String> {
    let last_line = right.split_inclusive(is_newline).next_back().unwrap_or_default();
    let ended_well = match ran.status.code() {
        None => false,
        Some(code) => code == 0 || last_line.starts_with(b"bad line "),
    };
    (!ended_well).then(|| format!("all was printed, but the end was {}", ran.status))
}
