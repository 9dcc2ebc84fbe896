//! How often each call got each number, and how often each situation came up.
use super::super::Checked;
use std::collections::BTreeMap;

/// The calls, with the numbers that the papers let each get.
const CALLS: [(&str, &[u32]); 4] = [
    ("start", &[0, 1, 10]),
    ("put", &[0, 1, 2, 4, 5, 6, 8, 9, 10, 13, 14]),
    ("flush", &[0, 1, 2, 4, 5, 8, 9, 14]),
    ("block", &[0, 1, 13]),
];
const NUMBERS: usize = 15;

/// What a run has to have seen.
const SITUATIONS: [&str; 71] = [
    "a box of 1 group", "a box of 2 groups", "a box of 16 groups", "a box of 64 groups",
    // A put, accepted.
    "a block that was never written taken", "a lapsed block taken",
    "the search goes round", "a free reserve passed over", "a frozen block passed over", "a counting block passed over",
    "two blocks free besides the reserve", "two blocks free, and the reserve is not", "last taken out of the box",
    "reserve out of the box", "the replaced version is the block taken", "a version replaced in its own group",
    "a version replaced in another group", "none held", "the version's group held", "another group held",
    "the log block with a version replaced", "the log block without one", "the log block in the version's group",
    "the log block in another group", "the next reserve in another group",
    "the next reserve is the version replaced", "at the last time", "at the latest time",
    "a page leaves at the write", "a page leaves at the unfreeze", "a page leaves at the log block",
    // A put, refused.
    "one block free besides the reserve", "one block free, and the reserve", "no block free", "time gone back",
    "time over the limit", "content of a wrong length", "8 at the write", "8 at the unfreeze", "8 at the log block",
    "8 at the unfreeze by the write's count", "9 at the unfreeze", "9 at the log block", "9 at an unfreeze of the reserve",
    "9 at the log block by the unfreeze before it", "5 at the unfreeze", "5 at the log block", "10 at the unfreeze",
    "13 with all else wrong", "invalid state", "invalid memory", "a page leaves before a command that is refused",
    // A flush.
    "a flush without records", "a flush without records, invalid memory", "a flush of one record",
    "a flush of 62 records", "a flush, invalid state", "a flush, invalid memory", "a flush to a reserve that is not free",
    "a flush to a reserve out of the box", "a flush with its count spent", "a page leaves in a flush",
    // Others' commands.
    "the reserve written by others", "a newest version unfrozen by others", "a newest version lengthened by others",
    "a newest version's block written by others", "a record's part put again", "restart", "restart with a page held",
    "new salt", "sync",
];

pub struct Seen {
    numbers: [[u64; NUMBERS]; CALLS.len()],
    situations: BTreeMap<&'static str, u64>,
}

impl Default for Seen {
    fn default() -> Seen {
        Seen { numbers: Default::default(), situations: SITUATIONS.map(|name| (name, 0)).into() }
    }
}

impl Seen {
    pub fn start(&mut self, number: u32) {
        self.numbers[0][number as usize] += 1;
    }

    pub fn put(&mut self, number: u32) {
        self.numbers[1][number as usize] += 1;
    }

    pub fn flush(&mut self, number: u32) {
        self.numbers[2][number as usize] += 1;
    }

    pub fn block(&mut self, number: u32) {
        self.numbers[3][number as usize] += 1;
    }

    /// Notes a situation of the list, where it is one.
    pub fn note(&mut self, name: &'static str, here: bool) {
        let count = self.situations.get_mut(name).unwrap_or_else(|| panic!("not in the list: {name}"));
        *count += u64::from(here);
    }

    pub fn print(&self) {
        for ((name, possible), numbers) in CALLS.iter().zip(&self.numbers) {
            let counts: Vec<String> = possible.iter().map(|n| format!("{n}: {}", numbers[*n as usize])).collect();
            println!("{name:6} {}", counts.join(", "));
        }
        let mut rarest: Vec<(u64, &str)> = self.situations.iter().map(|(name, count)| (*count, *name)).collect();
        rarest.sort();
        println!("rarest situations: {:?}", &rarest[..9]);
    }

    /// Every number that a call can get came up, and no other; and every situation but these did.
    pub fn check_but(&self, not_met: &[&str]) -> Checked {
        for ((name, possible), numbers) in CALLS.iter().zip(&self.numbers) {
            for (number, count) in numbers.iter().enumerate() {
                if possible.contains(&(number as u32)) != (*count > 0) {
                    return Err(format!("{name} got {number} {count} times"));
                }
            }
        }
        match self.situations.iter().find(|(name, count)| not_met.contains(*name) != (**count == 0)) {
            Some((name, count)) => Err(format!("came up {count} times: {name}")),
            None => Ok(format!("all numbers and {} situations", SITUATIONS.len() - not_met.len())),
        }
    }
}
