//! Which memories came up among the migrations.
use super::super::places::{groups, held, updates};
use super::super::Checked;
use super::NONE;
use std::collections::BTreeMap;

/// What the random memories have to meet: each clause broken alone, and what is accepted.
const SITUATIONS: [&str; 22] = [
    "length", "no groups", "17 to 64 groups", "more than 64 groups", "a group held that is not there", "the last time", "counts from G on",
    "byte 103", "a held group's count of 0", "a held group's count that is too high", "a held page without updates",
    "a held page of too many updates", "updates and none held", "page bytes and none held", "several clauses at once",
    "a buffer of another length", "a buffer of another length, and not valid", "a page held", "none held", "a page of one update",
    "a page of 63 updates", "the last group's page held",
];

pub struct Seen {
    situations: BTreeMap<&'static str, u64>,
    boxes: Boxes,
}

impl Default for Seen {
    fn default() -> Seen {
        Seen { situations: SITUATIONS.map(|name| (name, 0)).into(), boxes: Boxes::default() }
    }
}

impl Seen {
    fn note(&mut self, name: &str, here: bool) {
        let count = self.situations.get_mut(name).unwrap_or_else(|| panic!("not in the list: {name}"));
        *count += u64::from(here);
    }

    /// A memory that breaks these clauses, with a buffer of the right length or not.
    pub fn memory(&mut self, old: &[u8], broken: &[&'static str], room: bool) {
        if !room {
            self.note("a buffer of another length", broken.is_empty());
            return self.note("a buffer of another length, and not valid", !broken.is_empty());
        }
        match broken {
            [] => self.accepted(old),
            [one] => self.note(one, true),
            _ => self.note("several clauses at once", true),
        }
    }

    fn accepted(&mut self, old: &[u8]) {
        let holds = held(old) != NONE as usize;
        self.boxes.note(old);
        self.note("a page held", holds);
        self.note("none held", !holds);
        self.note("a page of one update", updates(old) == 1);
        self.note("a page of 63 updates", updates(old) == 63);
        self.note("the last group's page held", held(old) == groups(old) - 1);
    }

    pub fn print(&self) {
        let mut rarest: Vec<(u64, &str)> = self.situations.iter().map(|(name, count)| (*count, *name)).collect();
        rarest.sort();
        println!("rarest memories: {:?}", &rarest[..6]);
    }

    pub fn check(&self) -> Checked {
        match self.situations.iter().find(|(_, count)| **count == 0) {
            Some((name, _)) => Err(format!("did not come up: {name}")),
            None => Ok(format!("{} situations, {}", SITUATIONS.len(), self.boxes.check()?)),
        }
    }
}

/// How often a box of so many groups was migrated, with none held and with a page.
#[derive(Default)]
pub struct Boxes([[u64; 2]; 16]);

impl Boxes {
    pub fn note(&mut self, old: &[u8]) {
        self.0[groups(old) - 1][usize::from(held(old) != NONE as usize)] += 1;
    }

    /// Each number of groups came up, both ways.
    pub fn check(&self) -> Checked {
        match self.0.iter().position(|both| both.contains(&0)) {
            Some(place) => Err(format!("did not come up: {} groups, {:?} with none held and with a page", place + 1, self.0[place])),
            None => Ok("1 to 16 groups with a page held and with none".into()),
        }
    }
}
