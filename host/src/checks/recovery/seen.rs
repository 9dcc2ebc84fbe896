//! Which numbers and situations came up in the random runs.
use super::super::Checked;
use std::collections::BTreeMap;

const NUMBERS: [u32; 5] = [0, 1, 2, 4, 6];

/// What the random runs have to meet.
const SITUATIONS: [&str; 63] = [
    // Where a walk stops; of the reasons by states and times, the only one there.
    "stopped out of range", "a pointer to the end of the box", "a pointer whose low half is in range", "stopped at a block never written",
    "stopped at a lapsed block", "stopped at a block written after X", "stopped a second after X",
    "stopped at a block written before its parent", "stopped a second before the parent", "stopped at a block walked already",
    "stopped by a pointer to itself", "stopped at block 0", "stopped by the held page, not by the disk's",
    // Where it goes on.
    "a log block written at X", "a log block as old as its parent", "a log block that counts down",
    "a log block by the held page, not by the disk's", "a walk of one block", "a walk of two to nine blocks",
    "a walk of ten blocks or more", "a walk over two groups", "no part found",
    // Records.
    "a record of part 256", "a record of a part above 255", "a record of a block out of range", "a record of a free block",
    "a record of a block written after X", "a later record that does not count", "a record of a block written at X",
    "a record of a block that counts down", "a record of a log block", "a record by the held page, not by the disk's",
    "a record at the last place", "a record that supersedes another", "a record that supersedes one of a newer block",
    // A store up to X.
    "a store on the largest box", "a store without a put", "a store of one log block", "a store of several log blocks",
    "a store that flushed before X", "a store whose blocks were used again", "a store's call refused", "a new salt before X",
    // An intrusion after X.
    "a log block unfrozen", "a version unfrozen", "a version lengthened", "a log block lengthened", "the reserve written",
    "a spoofed log block in the reserve", "a block freed since X written", "an old page brought", "a restart that loses a page",
    "a new salt after X", "a put after X", "a log block stored after X", "a version replaced after X", "a list after X",
    "a command refused after X",
    // The promise.
    "the map at X itself", "the map at a later time", "the map in its last second", "the versions read back", "a walk past the promise",
];

pub struct Seen {
    numbers: BTreeMap<u32, u64>,
    situations: BTreeMap<&'static str, u64>,
}

impl Default for Seen {
    fn default() -> Seen {
        Seen { numbers: BTreeMap::new(), situations: SITUATIONS.map(|name| (name, 0)).into() }
    }
}

impl Seen {
    pub fn number(&mut self, number: u32) {
        *self.numbers.entry(number).or_default() += 1;
    }

    pub fn note(&mut self, name: &str) {
        *self.situations.get_mut(name).unwrap_or_else(|| panic!("not in the list: {name}")) += 1;
    }

    pub fn note_if(&mut self, name: &str, here: bool) {
        if here {
            self.note(name);
        }
    }

    pub fn print(&self) {
        println!("numbers {:?}", self.numbers);
        let mut rarest: Vec<(u64, &str)> = self.situations.iter().map(|(name, count)| (*count, *name)).collect();
        rarest.sort();
        println!("rarest situations: {:?}", &rarest[..9]);
    }

    /// Every number that there is came up, and no other; and every situation did.
    pub fn check(&self) -> Checked {
        let numbers: Vec<u32> = self.numbers.keys().copied().collect();
        if numbers != NUMBERS {
            return Err(format!("the numbers that came up are {numbers:?}"));
        }
        match self.situations.iter().find(|(_, count)| **count == 0) {
            Some((name, _)) => Err(format!("did not come up: {name}")),
            None => Ok(format!("all numbers and {} situations", SITUATIONS.len())),
        }
    }
}
