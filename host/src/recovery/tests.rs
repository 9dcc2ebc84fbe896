//! The model by hand: which blocks are found, where the walk stops, and what is refused.
use super::recover;
use crate::controller::{self, OwnDigest, PRESENT};
use crate::versions;

const LAST_TIME: u32 = 1000;
const POINT: u32 = 2000;
const NOW: u32 = 3000;
/// Entries, word and stamp, of a block written at 1500: frozen, counting at NOW, and free from NOW on.
const FROZEN: (u32, u32) = (500, 3000);
const COUNTING: (u32, u32) = (NOW + 1, 3001);
const LAPSED: (u32, u32) = (NOW, 3001);

struct Made {
    memory: [u8; 808],
    disk: Vec<u8>,
}

impl Made {
    /// A box whose blocks are all free, and whose log is block 0, written at 1500, with these records and this pointer.
    fn new(groups: usize, records: &[(u32, u32)], pointer: u64) -> Made {
        let mut made = Made { memory: [0; 808], disk: vec![0; 33_280 * groups] };
        assert_eq!(controller::format::<PRESENT>(&mut made.memory, &mut made.disk, groups as u32, &[0; 32]), 0);
        made.memory[288..292].copy_from_slice(&LAST_TIME.to_le_bytes());
        made.log(0, FROZEN, records, pointer);
        made
    }

    fn log(&mut self, block: usize, entry: (u32, u32), records: &[(u32, u32)], pointer: u64) {
        self.entry(block, entry);
        let place = 512 * (block + block / 64);
        let mut bytes: Vec<u8> = records.iter().flat_map(|(part, block)| [part.to_le_bytes(), block.to_le_bytes()].concat()).collect();
        bytes.resize(504, 0xFF);
        bytes.extend(pointer.to_le_bytes());
        self.disk[place..place + 512].copy_from_slice(&bytes);
    }

    fn entry(&mut self, block: usize, (word, stamp): (u32, u32)) {
        let place = 33_280 * (block / 64) + 32_768 + 8 * (block % 64);
        self.disk[place..place + 4].copy_from_slice(&word.to_le_bytes());
        self.disk[place + 4..place + 8].copy_from_slice(&stamp.to_le_bytes());
    }

    /// The result has these parts' blocks, and no others.
    fn finds(&self, point: u32, now: u32, blocks: &[(usize, u32)]) {
        let mut right = [0xFF; 1024];
        for (part, block) in blocks {
            right[4 * part..4 * part + 4].copy_from_slice(&block.to_le_bytes());
        }
        let mut result = [0xCC; 1024];
        assert_eq!(recover::<PRESENT>(&self.memory, &self.disk, point, now, &mut result), 0);
        assert_eq!(result, right, "at {point}, now {now}");
    }

    fn refuses(&self, disk_len: usize, now: u32, result_len: usize, number: u32) {
        let mut result = vec![0xCC; result_len];
        assert_eq!(recover::<PRESENT>(&self.memory, &self.disk[..disk_len], POINT, now, &mut result), number);
        assert_eq!(result, vec![0xCC; result_len]);
    }
}

#[test]
fn a_store_is_found_as_it_was() {
    let (mut state, mut made) = ([0; 1536], Made::new(1, &[], 0));
    made.entry(0, (0, 1));
    assert_eq!(versions::start(&mut state, 500), 0);
    for (part, now) in [(7, 1000), (255, 1001), (7, 1002)] {
        assert!(versions::put::<PRESENT, OwnDigest>(&mut state, &mut made.memory, &mut made.disk, part, now, &[1; 512]).is_ok());
    }
    made.finds(1002, 1002, &[]);
    assert_eq!(versions::flush::<PRESENT, OwnDigest>(&mut state, &mut made.memory, &mut made.disk, 1003), Ok(()));
    // With the page held as it is, and as of the times about the log block's.
    made.finds(1003, 1003, &[(7, 3), (255, 2)]);
    made.finds(1002, 1003, &[]);
    // Part 7's first version is counting until 1503, and the last one stays.
    made.finds(u32::MAX, 2_147_483_647, &[(7, 3), (255, 2)]);
}

#[test]
fn the_last_record_that_counts_wins() {
    let mut made = Made::new(2, &[(7, 3), (7, 4), (7, 5), (8, 127), (8, 128), (255, 4), (256, 4), (9, 6)], 1);
    made.log(1, FROZEN, &[(7, 9), (4, 0), (5, 1)], u64::MAX);
    for (block, entry) in [(3, FROZEN), (4, COUNTING), (5, LAPSED), (127, FROZEN), (6, (0, 1))] {
        made.entry(block, entry);
    }
    made.finds(POINT, NOW, &[(7, 4), (8, 127), (255, 4), (4, 0), (5, 1)]);
    made.finds(POINT, NOW - 1, &[(7, 5), (8, 127), (255, 4), (4, 0), (5, 1)]);
    made.entry(9, (1, 2 * POINT));
    made.finds(POINT, NOW, &[(7, 9), (8, 127), (255, 4), (4, 0), (5, 1)]);
    made.entry(9, (1, 2 * POINT + 2));
    made.finds(POINT, NOW, &[(7, 4), (8, 127), (255, 4), (4, 0), (5, 1)]);
}

/// The log's second block is 64, with the part 2 in block 1, and its third one 127, with 3.
#[test]
fn the_walk_stops() {
    let records = [(1, 1)];
    let walk = |pointer: u64, entry: (u32, u32), found: &[(usize, u32)]| {
        let mut made = Made::new(2, &records, pointer);
        made.entry(1, FROZEN);
        made.log(64, entry, &[(2, 1)], 127);
        made.log(127, (9, 3002), &[(3, 1)], 0);
        made.finds(POINT, NOW, found);
    };
    let all = [(1, 1), (2, 1), (3, 1)];
    walk(64, FROZEN, &all);
    walk(64, COUNTING, &all);
    walk(64, (0, 3002), &all);
    // Before its parent: at 1502 the third block is, at 1499 the second.
    walk(64, (0, 3004), &all[..2]);
    walk(64, (0, 2998), &all[..1]);
    walk(64, (0, 2 * POINT), &all[..2]);
    walk(64, (0, 2 * POINT + 2), &all[..1]);
    walk(64, LAPSED, &all[..1]);
    // Out of range; itself; a block beyond 32 bits.
    walk(128, FROZEN, &all[..1]);
    walk(u64::MAX, FROZEN, &all[..1]);
    walk(0, FROZEN, &all[..1]);
    walk(1 << 32 | 64, FROZEN, &all[..1]);
    walk(127, FROZEN, &[(1, 1), (3, 1)]);
}

#[test]
fn the_held_page_is_the_current_one() {
    let mut made = Made::new(1, &[(1, 1), (2, 2)], 9);
    made.entry(1, FROZEN);
    let page: [u8; 512] = made.disk[32_768..].try_into().unwrap();
    made.entry(0, (0, 1));
    made.entry(2, FROZEN);
    made.finds(POINT, NOW, &[]);
    made.memory[32] = 1;
    made.memory[293..295].copy_from_slice(&[0, 1]);
    made.memory[296..].copy_from_slice(&page);
    made.finds(POINT, NOW, &[(1, 1)]);
}

/// Sixty-four groups, each block a log block with a part of its own: the walk takes all 4,096, and ends where it began.
#[test]
fn a_log_may_take_every_block() {
    let mut made = Made::new(64, &[(0, 0)], 1);
    for block in 1..4096 {
        made.log(block, FROZEN, &vec![(block as u32 % 256, block as u32); 63], (block as u64 + 1) % 4096);
    }
    let blocks: Vec<(usize, u32)> = (0..256).map(|part| (part, 3840 + part as u32)).collect();
    made.finds(POINT, NOW, &blocks);
}

#[test]
fn questions_are_asked_in_order() {
    let mut made = Made::new(1, &[], 0);
    made.refuses(33_280, NOW, 1023, 6);
    made.refuses(33_280, NOW, 1025, 6);
    made.refuses(33_280, LAST_TIME - 1, 0, 4);
    made.refuses(33_280, 2_147_483_648, 0, 4);
    made.refuses(33_279, 0, 0, 2);
    made.memory[295] = 1;
    made.refuses(33_279, 0, 0, 1);
    made.memory[295] = 0;
    made.finds(0, LAST_TIME, &[]);
}
