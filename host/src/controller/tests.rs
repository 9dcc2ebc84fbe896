//! A formatted box for the model's own tests, and document 02's Q-4 by hand: the bytes of memory and disk about the 64th
//! update of a held page.
use super::{command, format, Command, OwnDigest, INCREMENT, NEW_SALT, PAGE, PRESENT, READ, RESTART, SYNC, UNFREEZE, WRITE};

pub struct Formatted {
    pub memory: [u8; 808],
    pub disk: Vec<u8>,
}

impl Formatted {
    pub fn new(groups: u32) -> Formatted {
        let mut made = Formatted { memory: [0; 808], disk: vec![0; 33_280 * groups as usize] };
        assert_eq!(format::<PRESENT>(&mut made.memory, &mut made.disk, groups, &[0; 32]), 0);
        made
    }

    /// An accepted command's answer; an update brings the current page.
    pub fn sends(&mut self, kind: u32, block: u32, now: u32, value: u32) -> [u8; 544] {
        let mut answer = [0; 544];
        assert_eq!(self.gets(kind, block, now, value, &mut answer), 0);
        answer
    }

    fn gets(&mut self, kind: u32, block: u32, now: u32, value: u32, answer: &mut [u8; 544]) -> u32 {
        let proof = match kind {
            WRITE | UNFREEZE | INCREMENT => self.sends(PAGE, block / 64, self.last_time(), 0).to_vec(),
            _ => Vec::new(),
        };
        let data: &[u8] = match kind {
            WRITE => &[0x44; 512],
            NEW_SALT => &[0x99; 32],
            _ => &[],
        };
        let sent = Command { kind, block, now, value, data, proof: &proof };
        command::<PRESENT, OwnDigest>(&mut self.memory, &mut self.disk, &sent, answer)
    }

    fn last_time(&self) -> u32 {
        u32::from_le_bytes(self.memory[288..292].try_into().unwrap())
    }

    /// Block 3 is written under lock 0 at 100, and its lock grows by 1 until group 0 has had so many updates.
    fn updated(updates: u32) -> Formatted {
        let mut a = Formatted::new(2);
        a.sends(WRITE, 3, 100, 0);
        a.grows(updates - 1);
        a
    }

    /// So many updates.
    fn grows(&mut self, times: u32) {
        for _ in 0..times {
            self.sends(INCREMENT, 3, 100, 1);
        }
    }

    /// The counts of the two groups, the held group and the updates to its page.
    fn is(&self, counts: [u8; 2], held: u8, updates: u8) {
        assert_eq!(self.memory[32..40], [counts[0], 0, 0, 0, counts[1], 0, 0, 0]);
        assert_eq!(self.memory[292..296], [2, held, updates, 0]);
        if held == 255 {
            assert_eq!(self.memory[296..], [0; 512]);
        }
    }

    /// Block 3's entry on the disk: written at 100, with this lock.
    fn stored(&self, lock: u8) {
        assert_eq!(self.disk[64 * 512 + 24..][..8], [lock, 0, 0, 0, 200, 0, 0, 0]);
    }

    fn blank(&self) {
        assert_eq!(self.disk[64 * 512..][..512], [0, 0, 0, 0, 1, 0, 0, 0].repeat(64));
    }
}

#[test]
fn the_64th_update_leaves_by_itself() {
    let mut a = Formatted::updated(1);
    for updates in 2..=63 {
        a.is([updates - 1, 0], 0, updates - 1);
        a.sends(INCREMENT, 3, 100, 1);
    }
    a.is([63, 0], 0, 63);
    a.blank();
    let answer = a.sends(INCREMENT, 3, 100, 1);
    a.is([64, 0], 255, 0);
    a.stored(63);
    assert_eq!(answer[..512], a.disk[64 * 512..][..512]);
    assert_eq!(answer, a.sends(PAGE, 0, 100, 0));
    a.sends(INCREMENT, 3, 100, 1);
    a.is([65, 0], 0, 1);
    a.stored(63);
    a.grows(63);
    a.is([128, 0], 255, 0);
    a.stored(127);
}

#[test]
fn a_64th_write_stores_its_data_and_the_page() {
    let mut a = Formatted::updated(63);
    let answer = a.sends(WRITE, 5, 100, 9);
    a.is([64, 0], 255, 0);
    assert_eq!(a.disk[5 * 512..][..512], [0x44; 512]);
    assert_eq!(a.disk[6 * 512..][..512], [0; 512]);
    assert_eq!(a.disk[64 * 512 + 40..][..8], [9, 0, 0, 0, 200, 0, 0, 0]);
    assert_eq!(answer[..512], a.disk[64 * 512..][..512]);
}

#[test]
fn a_restart_loses_63_updates_and_none_of_64() {
    let mut a = Formatted::updated(63);
    a.sends(RESTART, 0, 100, 0);
    a.is([64, 0], 255, 0);
    a.blank();
    let mut a = Formatted::updated(64);
    a.sends(RESTART, 0, 100, 0);
    a.is([64, 0], 255, 0);
    a.stored(63);
}

#[test]
fn what_lets_the_page_go_begins_the_count_anew() {
    for (kind, count) in [(SYNC, 63), (RESTART, 64), (NEW_SALT, 0)] {
        let mut a = Formatted::updated(63);
        a.sends(kind, 0, 100, 0);
        a.is([count, 0], 255, 0);
        a.sends(WRITE, 9, 100, 1);
        a.is([count + 1, 0], 0, 1);
    }
    let mut a = Formatted::updated(63);
    a.sends(WRITE, 64, 100, 1);
    a.is([63, 1], 1, 1);
    a.stored(62);
    a.sends(INCREMENT, 3, 100, 1);
    a.is([64, 1], 0, 1);
}

#[test]
fn only_accepted_updates_are_counted() {
    let mut a = Formatted::updated(63);
    let mut answer = [0; 544];
    assert_eq!(a.gets(WRITE, 3, 100, 1, &mut answer), 9);
    assert_eq!(a.gets(WRITE, 4, 99, 1, &mut answer), 4);
    assert_eq!(a.gets(WRITE, 4, 100, 2_147_483_648, &mut answer), 10);
    a.sends(READ, 3, 100, 0);
    a.is([63, 0], 0, 63);
    a.blank();
}

/// Every value of bytes 294 and 295, with a page held and with none.
#[test]
fn a_held_page_has_1_to_63_updates() {
    for (a, fewest, most) in [(Formatted::updated(7), 1, 63), (Formatted::new(2), 0, 0)] {
        for byte in 0..=255 {
            let mut b = Formatted { memory: a.memory, disk: a.disk.clone() };
            b.memory[294] = byte;
            let number = if (fewest..=most).contains(&byte) { 0 } else { 1 };
            assert_eq!(b.gets(READ, 0, 100, 0, &mut [0; 544]), number, "byte 294 is {byte}");
            b.memory[294] = a.memory[294];
            b.memory[295] = byte;
            assert_eq!(b.gets(READ, 0, 100, 0, &mut [0; 544]), byte.min(1) as u32, "byte 295 is {byte}");
        }
    }
}
