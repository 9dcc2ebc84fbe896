//! A command to be sent, and what a tester who knows the memory and the disk can make of them, of either box.
use super::places::{self, COUNTS};
use crate::blake3;

pub const LATEST: u32 = 2_147_483_647;
pub const GROUP: usize = 33_280;
pub const MEMORY: usize = places::PRESENT.size;
pub const ANSWER: usize = 544;
/// Kinds that there are not.
pub const UNKNOWN: [u32; 4] = [0, 11, 255, u32::MAX];

#[derive(Clone)]
pub struct Call {
    pub kind: u32,
    pub block: u32,
    pub now: u32,
    pub value: u32,
    pub data: Vec<u8>,
    pub proof: Vec<u8>,
    pub answer_len: usize,
    /// The lengths that are told to the controllers where they are not those of the box.
    pub memory_len: Option<usize>,
    pub disk_len: Option<usize>,
}

impl Call {
    /// A command whose buffers have the lengths of its kind. Its data are of one byte; a proof is
    /// to be filled in.
    pub fn new(kind: u32, block: u32, now: u32, value: u32) -> Call {
        let (data, proof) = match kind {
            4 => (512, 544),
            5 | 6 => (0, 544),
            9 => (32, 0),
            _ => (0, 0),
        };
        let data = vec![(now ^ block ^ value) as u8; data];
        let proof = vec![0; proof];
        Call { kind, block, now, value, data, proof, answer_len: ANSWER, memory_len: None, disk_len: None }
    }

    /// The same with the current page of the block's group and its tag, where the kind takes them.
    pub fn good(kind: u32, block: u32, now: u32, value: u32, memory: &[u8], disk: &[u8]) -> Call {
        let mut call = Call::new(kind, block, now, value);
        let group = block as usize / 64;
        if !call.proof.is_empty() && group < places::groups(memory) {
            call.proof = proof(memory, group, page(memory, disk, group));
        }
        call
    }
}

pub fn number(bytes: &[u8], at: usize) -> u32 {
    u32::from_le_bytes(bytes[at..at + 4].try_into().unwrap())
}

pub fn put_number(bytes: &mut [u8], at: usize, number: u32) {
    bytes[at..at + 4].copy_from_slice(&number.to_le_bytes());
}

/// The group's current page.
pub fn page<'a>(memory: &'a [u8], disk: &'a [u8], group: usize) -> &'a [u8] {
    if places::held(memory) == group {
        return &memory[places::of(memory).page..];
    }
    &disk[512 * (65 * group + 64)..][..512]
}

/// A page with its tag under the salt and the group's count.
pub fn proof(memory: &[u8], group: usize, page: &[u8]) -> Vec<u8> {
    let mut hasher = blake3::Hasher::default();
    hasher.update(&memory[..32]);
    hasher.update(&(group as u64).to_le_bytes());
    hasher.update(&memory[COUNTS + 4 * group..][..4]);
    hasher.update(page);
    [page, &hasher.finalize()].concat()
}

/// A page of 64 entries that are all alike.
pub fn even_page(word: u32, stamp: u32) -> Vec<u8> {
    [word.to_le_bytes(), stamp.to_le_bytes()].concat().repeat(64)
}
