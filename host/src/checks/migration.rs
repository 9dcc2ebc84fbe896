//! The comparison of migrations, document 02's request Q-7, and of old boxes with what the archive makes of them. Its checks are run
//! by `bin/migration.rs`.
pub mod clauses;
pub mod hand;
pub mod lengths;
pub mod memories;
pub mod runs;
pub mod seen;
pub mod stack;

use super::call::put_number;
use super::places::{widened, COUNTS, OLD, PRESENT};
use super::room::Room;
use crate::{archive, controller};

pub const NONE: u8 = 255;

/// The archive's migration and the host's, kept in step: each memory goes to both, and then the numbers, every byte of the
/// buffers, and the canaries around them, are compared.
#[derive(Default)]
pub struct Migrations {
    old: Room,
    archive: Room,
    own: Room,
    pub made: usize,
}

impl Migrations {
    /// A memory is migrated into a buffer of so many bytes, none of which is zero: it is to get this number, and all bytes that
    /// follow from it.
    pub fn expect(&mut self, old: &[u8], len: usize, number: u32) -> Result<(), String> {
        self.made += 1;
        let byte = self.made as u8 | 1;
        self.old.put(old, self.made % 7);
        for room in [&mut self.archive, &mut self.own] {
            room.fill(len, byte, self.made % 11);
        }
        let got = archive::migrate(self.old.part(), self.archive.part_mut());
        let own = controller::migrate(old, self.own.part_mut());
        let place = format!("migration {}, {} bytes into {len}", self.made, old.len());
        if [got, own] != [number; 2] {
            return Err(format!("{place}: answered {got}, the host's {own}, and it is {number}"));
        }
        let [mut read, mut right] = [Room::default(), Room::default()];
        read.put(old, 0);
        match number {
            0 => right.put(&widened(old), 0),
            _ => right.fill(len, byte, 0),
        }
        let rooms = [("old memory", &self.old, &read), ("buffer", &self.archive, &right), ("host's buffer", &self.own, &right)];
        match rooms.iter().find_map(|(name, got, right)| got.difference(right).map(|difference| (name, difference))) {
            Some((name, difference)) => Err(format!("{place}: answered {got}, {name}: {difference}")),
            None => Ok(()),
        }
    }
}

/// A valid memory of an old box, with a page held or none. No byte of salt, of the groups' counts and of a held page is zero.
pub fn old_memory(groups: u8, held: u8) -> Vec<u8> {
    let mut old = vec![0; OLD.size];
    (0..32).for_each(|i| old[i] = 0xA0 + i as u8);
    (0..groups as usize).for_each(|group| put_number(&mut old, COUNTS + 4 * group, 0x4433_2211 + group as u32));
    put_number(&mut old, OLD.last_time, 0x1234_5678);
    old[OLD.groups] = groups;
    old[OLD.held] = held;
    if held != NONE {
        old[OLD.updates] = 37;
        (0..512).for_each(|i| old[OLD.page + i] = 1 + (i % 250) as u8);
    }
    old
}

/// It is migrated, or refused, by a buffer of the right length.
pub fn judged(migrations: &mut Migrations, old: &[u8], valid: bool) -> Result<(), String> {
    migrations.expect(old, PRESENT.size, if valid { 0 } else { 1 })
}
