//! What scripts have led to: how often each kind got each number, and each state with each sign of
//! the time left; and which of these document 01 lets a script reach.
use crate::checks::Checked;

const UNKNOWN: usize = 10;
const STATES: [&str; 3] = ["free", "frozen", "counting"];
const SIGNS: [&str; 3] = ["negative", "zero", "positive"];

#[derive(Default)]
pub struct Seen {
    /// Rows: kinds 1 to 10 and the unknown ones.
    numbers: [[u64; 12]; 11],
    /// Rows: free, frozen, counting; columns: the time left negative, zero, positive.
    states: [[u64; 3]; 3],
}

impl Seen {
    /// Takes note of a printout without a bad line.
    pub fn note(&mut self, printed: &[u8]) -> Result<(), String> {
        let text = std::str::from_utf8(printed).map_err(|e| e.to_string())?;
        for line in text.lines().skip(1) {
            self.note_line(line).ok_or(format!("cannot be read: {line}"))?;
        }
        Ok(())
    }

    fn note_line(&mut self, line: &str) -> Option<()> {
        let mut words = line.split(' ').map(|word| word.parse::<i64>().ok());
        let mut next = || words.next()?;
        let (kind, _, _, number, state, left) = (next()?, next()?, next()?, next()?, next()?, next()?);
        let row = if (1..=10).contains(&kind) { kind as usize - 1 } else { UNKNOWN };
        *self.numbers[row].get_mut(number as usize)? += 1;
        if kind == 2 && number == 0 {
            self.states.get_mut(state as usize)?[(left.signum() + 1) as usize] += 1;
        }
        Some(())
    }

    /// All that a script can lead to did occur, and nothing else.
    pub fn check(&self) -> Checked {
        let mut occurred = 0;
        for (row, number) in (0..11).flat_map(|row| (0..12).map(move |number| (row, number))) {
            let count = self.numbers[row][number];
            if can_get(row, number) != (count > 0) {
                let kind = if row == UNKNOWN { String::from("an unknown kind") } else { format!("kind {}", row + 1) };
                return Err(format!("{kind} got {number} {count} times"));
            }
            occurred += usize::from(count > 0);
        }
        for (state, sign) in (0..3).flat_map(|state| (0..3).map(move |sign| (state, sign))) {
            let count = self.states[state][sign];
            if can_be(state, sign) != (count > 0) {
                return Err(format!("{} with {} time left was seen {count} times", STATES[state], SIGNS[sign]));
            }
        }
        Ok(format!("all {occurred} pairs of kind and number and 5 of state and sign"))
    }
}

/// Whether a script can lead a kind to a number. It brings the right lengths and the current page,
/// the count stays low, and an unfreeze never passes the limit: both times fit in 31 bits.
fn can_get(row: usize, number: usize) -> bool {
    match (row + 1, number) {
        (_, 3) => row == UNKNOWN,
        _ if row == UNKNOWN => false,
        (_, 0 | 4) => true,
        (kind, 5) => kind <= 6,
        (kind, 9) => (4..=6).contains(&kind),
        (kind, 10) => kind == 4 || kind == 6,
        (kind, 11) => kind == 9,
        _ => false,
    }
}

/// A lock is 0 or more; what counts has time left, and what is free has none.
fn can_be(state: usize, sign: usize) -> bool {
    match STATES[state] {
        "frozen" => sign >= 1,
        "counting" => sign == 2,
        _ => sign <= 1,
    }
}
