//! The comparison of document 02's request Q-4: with its 64th update a held page leaves by itself. The checks, which
//! `bin/commands.rs` runs, keep count of the updates on their own, so that two controllers that are wrong alike are found too.
pub mod between;
pub mod hand;
pub mod stores;
pub mod turns;

use super::call::{number, page, Call};
use super::lists::List;
use super::pair::Pair;
use super::places::{self, last_time};

/// The tester's own count: the group whose page was held last, and its updates since it came in. It goes on where the page leaves
/// by itself, at each multiple of 64.
#[derive(Clone, Copy, Default)]
pub struct Tally {
    group: u32,
    updates: u32,
}

impl Tally {
    /// A group's page is held, with so many updates.
    pub fn new(group: u32, updates: u32) -> Tally {
        Tally { group, updates }
    }

    pub fn update(&mut self, group: u32) {
        let before = if group == self.group { self.updates } else { 0 };
        *self = Tally { group, updates: before + 1 };
    }

    /// A sync, a restart or a new salt.
    fn let_go(&mut self) {
        self.updates = 0;
    }

    /// Both controllers hold the group's page, with as many updates; or none, of zero bytes.
    pub fn holds(&self, pair: &Pair) -> Result<(), String> {
        let right = match self.updates % 64 {
            0 => [255, 0, 0],
            updates => [self.group as u8, updates as u8, 0],
        };
        let at = pair.model.places;
        let (front, page) = pair.memory().split_at(at.page);
        if front[at.held..] != right {
            return Err(format!("command {}: both have {:?} from byte {} on, not {right:?}", pair.index, &front[at.held..], at.held));
        }
        if right[0] == 255 && page != [0; 512] {
            return Err(format!("command {}: both hold none, and a byte of its page is not zero", pair.index));
        }
        Ok(())
    }
}

/// An update of the group that is accepted whatever was lost before it: the blocks come by turns, three updates to each, of the kind
/// that its entry allows.
fn update(pair: &Pair, group: u32, turn: u32) -> Call {
    let index = turn / 3 * 11 % 64;
    let now = last_time(pair.memory()) + turn % 2;
    let entry = &page(pair.memory(), pair.disk(), group as usize)[8 * index as usize..][..8];
    let (counting, frozen) = (number(entry, 0) > now, entry[4].is_multiple_of(2));
    let kind = match (frozen, counting) {
        (true, _) => 5 + turn % 2,
        (_, true) => 6,
        _ => 4,
    };
    pair.good(kind, 64 * group + index, now, 1 + turn % 3)
}

/// It is accepted, and then the tally holds.
fn updated(pair: &mut Pair, tally: &mut Tally, group: u32, turn: u32) -> Result<(), String> {
    let call = update(pair, group, turn);
    pair.expect(&call, 0)?;
    tally.update(group);
    tally.holds(pair)
}

/// The entries of every block, by lists, every page with its tag, and a block of each group. Nothing of it counts as an update.
fn read_all(pair: &mut Pair, tally: &Tally) -> Result<(), String> {
    let now = last_time(pair.memory());
    for group in 0..places::groups(pair.memory()) as u32 {
        let blocks: Vec<u32> = (64 * group..64 * (group + 1)).collect();
        pair.expect_list(&List::new(&blocks, now), Ok(1))?;
        pair.expect(&Call::new(3, group, now, 0), 0)?;
        pair.expect(&Call::new(2, 64 * group, now, 0), 0)?;
        pair.expect(&Call::new(1, 64 * group, now, 0), 0)?;
    }
    pair.expect(&Call::new(10, 0, now, 0), 0)?;
    tally.holds(pair)
}

/// A sync, a restart or a new salt, after which no page is held.
fn let_go(pair: &mut Pair, tally: &mut Tally, kind: u32) -> Result<(), String> {
    let now = last_time(pair.memory());
    let value = now ^ !u32::from(pair.memory()[0]);
    pair.expect(&Call::new(kind, 0, now, value), 0)?;
    tally.let_go();
    tally.holds(pair)
}
