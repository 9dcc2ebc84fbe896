//! The model by hand: bytes, numbers, and commands that are taken back.
use super::{block, flush, put, start, Refusal};
use crate::controller::{self, OwnDigest, OLD, PRESENT};

#[derive(Clone, Debug, PartialEq)]
struct Store {
    state: Vec<u8>,
    memory: Vec<u8>,
    disk: Vec<u8>,
}

impl Store {
    fn new(groups: u32, lock: u32) -> Store {
        let mut made = Store { state: vec![0; 1536], memory: vec![0; 808], disk: vec![0; 33_280 * groups as usize] };
        assert_eq!(controller::format::<PRESENT>(&mut made.memory, &mut made.disk, groups, &[0; 32]), 0);
        assert_eq!(start(&mut made.state, lock), 0);
        made
    }

    fn puts(&mut self, part: u32, now: u32, byte: u8) -> Result<u32, Refusal> {
        put::<PRESENT, OwnDigest>(&mut self.state, &mut self.memory, &mut self.disk, part, now, &[byte; 512])
    }

    fn flushes(&mut self, now: u32) -> Result<(), Refusal> {
        flush::<PRESENT, OwnDigest>(&mut self.state, &mut self.memory, &mut self.disk, now)
    }

    fn set(&mut self, at: usize, number: u32) {
        self.state[at..at + 4].copy_from_slice(&number.to_le_bytes());
    }
}

#[test]
fn a_start_leaves_no_versions() {
    let store = Store::new(1, 500);
    assert_eq!(store.state[..16], [0xF4, 0x01, 0, 0, 0, 0, 0, 0, 0, 0, 0, 0, 0, 0, 0, 0]);
    assert_eq!(store.state[16..], [0xFF; 1520]);
    assert_eq!(block::<PRESENT>(&store.state, 255), Ok(u32::MAX));
    assert_eq!([0, 2_147_483_648].map(|lock| start(&mut [0; 1536], lock)), [10, 10]);
    assert_eq!([1, 2_147_483_647].map(|lock| start(&mut [0; 1536], lock)), [0, 0]);
    assert_eq!(start(&mut [0; 1537], 0), 1);
}

#[test]
fn three_puts_and_a_flush_leave_these_bytes() {
    let mut s = Store::new(1, 500);
    assert_eq!([s.puts(7, 1000, 1), s.puts(255, 1001, 2), s.puts(7, 1002, 3)], [Ok(1), Ok(2), Ok(3)]);
    let records = [7, 0, 0, 0, 1, 0, 0, 0, 255, 0, 0, 0, 2, 0, 0, 0, 7, 0, 0, 0, 3, 0, 0, 0];
    assert_eq!(s.state[8..16], [3, 0, 0, 0, 3, 0, 0, 0]);
    assert_eq!(s.state[1040..1064], records);
    assert_eq!([block::<PRESENT>(&s.state, 7), block::<PRESENT>(&s.state, 255), block::<PRESENT>(&s.state, 256)], [Ok(3), Ok(2), Err(13)]);
    // Block 1 counts to 1002 + 500 + 1.
    assert_eq!(s.memory[304..312], [0xDF, 0x05, 0, 0, 0xD1, 0x07, 0, 0]);
    assert_eq!(s.flushes(1003), Ok(()));
    assert_eq!(s.disk[..24], records);
    assert_eq!(s.disk[24..504], [0xFF; 480]);
    assert_eq!(s.disk[504..512], [4, 0, 0, 0, 0, 0, 0, 0]);
    assert_eq!(s.state[4..16], [4, 0, 0, 0, 4, 0, 0, 0, 0, 0, 0, 0]);
    let before = s.clone();
    assert_eq!(s.flushes(0), Ok(()));
    assert_eq!(s, before);
}

#[test]
fn the_sixty_third_put_stores_the_log() {
    let mut s = Store::new(2, 500);
    for put in 1..=63 {
        assert_eq!(s.puts(put, 1000, 1), Ok(put));
    }
    assert_eq!(s.disk[488..512], [62, 0, 0, 0, 62, 0, 0, 0, 63, 0, 0, 0, 63, 0, 0, 0, 64, 0, 0, 0, 0, 0, 0, 0]);
    assert_eq!(s.state[4..16], [64, 0, 0, 0, 64, 0, 0, 0, 0, 0, 0, 0]);
    assert_eq!(s.state[1040..], [0xFF; 496]);
}

/// 63 versions and the log block are 64 updates: with the last of them the page leaves, inside the put.
#[test]
fn a_page_leaves_inside_a_put() {
    let mut s = Store::new(2, 500);
    for put in 1..=62 {
        assert_eq!(s.puts(put, 1000, 1), Ok(put));
        assert_eq!(s.memory[292..296], [2, 0, put as u8, 0]);
    }
    assert_eq!(s.disk[64 * 512..65 * 512], [0, 0, 0, 0, 1, 0, 0, 0].repeat(64));
    let mut refused = s.clone();
    refused.set(4, 9);
    let before = refused.clone();
    assert_eq!(refused.puts(63, 1000, 1), Err(Refusal { number: 9, command: 2 }));
    assert_eq!(refused, before);
    assert_eq!(s.puts(63, 1000, 1), Ok(63));
    assert_eq!(s.memory[292..296], [2, 255, 0, 0]);
    assert_eq!(s.memory[296..], [0; 512]);
    assert_eq!(s.disk[64 * 512..65 * 512], [0xF4, 0x01, 0, 0, 0xD0, 0x07, 0, 0].repeat(64));
}

/// With 63 updates the write lets the page leave; then the replaced version is refused, and the page is back.
#[test]
fn a_page_that_left_is_taken_back() {
    let mut s = Store::new(1, 500);
    assert_eq!(s.puts(7, 1000, 1), Ok(1));
    s.memory[294] = 63;
    s.set(16 + 4 * 9, 20);
    let before = s.clone();
    assert_eq!(s.puts(9, 1001, 2), Err(Refusal { number: 9, command: 2 }));
    assert_eq!(s, before);
    assert_eq!(s.puts(7, 1001, 2), Ok(2));
    assert_eq!(s.memory[292..296], [1, 0, 1, 0]);
    assert_eq!(s.disk[64 * 512 + 8..][..16], [0xF4, 0x01, 0, 0, 0xD0, 0x07, 0, 0, 0xF4, 0x01, 0, 0, 0xD2, 0x07, 0, 0]);
    assert_eq!(s.memory[304..312], [0xDE, 0x05, 0, 0, 0xD1, 0x07, 0, 0]);
}

/// The version would go to group 0, for which group 1's held page leaves; the replaced one, and the log block, are refused.
#[test]
fn commands_before_a_refusal_are_taken_back() {
    let mut s = Store::new(2, 500);
    s.set(8, 70);
    assert_eq!(s.puts(7, 1000, 1), Ok(71));
    s.set(8, 9);
    s.set(16 + 4 * 9, 20);
    s.set(16 + 4 * 8, 128);
    let before = s.clone();
    assert_eq!(s.puts(9, 1001, 2), Err(Refusal { number: 9, command: 2 }));
    assert_eq!(s.puts(8, 1001, 2), Err(Refusal { number: 5, command: 2 }));
    assert_eq!(s, before);
    s.set(4, 71);
    assert_eq!(s.flushes(1001), Err(Refusal { number: 9, command: 1 }));
    s.set(4, 0);
    assert_eq!(s, before);
    assert_eq!(s.puts(7, 1001, 2), Ok(10));
}

#[test]
fn questions_are_asked_in_order() {
    let mut s = Store::new(1, 500);
    s.set(12, 63);
    assert_eq!([s.puts(256, 0, 1), s.puts(255, 0, 1)], [Err(13.into()), Err(1.into())]);
    s.set(12, 0);
    // All blocks but the reserve and one are frozen.
    s.disk[64 * 512..].chunks_exact_mut(8).skip(2).for_each(|entry| entry[4] = 0);
    assert_eq!([s.puts(255, 2_147_483_648, 1), s.puts(255, 0, 1)], [Err(4.into()), Err(14.into())]);
    s.disk[64 * 512 + 8 * 40 + 4] = 1;
    assert_eq!([s.puts(255, 0, 1), s.puts(255, 0, 1)], [Ok(1), Err(14.into())]);
}

/// A block that only the larger box can have.
#[test]
fn blocks_are_those_of_the_largest_box() {
    let mut s = Store::new(1, 500);
    for (number, old, present) in [(1023, Ok(1023), Ok(1023)), (1024, Err(1), Ok(1024)), (4095, Err(1), Ok(4095)), (4096, Err(1), Err(1))] {
        s.set(16 + 4 * 9, number);
        assert_eq!([block::<OLD>(&s.state, 9), block::<PRESENT>(&s.state, 9)], [old, present]);
    }
}
