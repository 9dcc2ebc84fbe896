//! Commands to the controller that are taken back where a later one is refused.
use super::Refusal;
use crate::controller::{self, Command, Digest, Memory, PAGE};

const BLOCK_SIZE: usize = 512;
const GROUP_DATA: u32 = 64;
const PROOF_SIZE: usize = 544;
/// Three commands, and at each the block and the held page, which leaves for another group's or by itself.
const MOST_STORES: usize = 6;

pub struct Trial<'a, const COUNTS: usize> {
    memory: &'a mut [u8],
    disk: &'a mut [u8],
    blocks: u32,
    now: u32,
    memory_before: Vec<u8>,
    /// Physical blocks that the commands may have stored, with what was there.
    stored: Vec<(usize, [u8; BLOCK_SIZE])>,
    /// How many commands were given.
    given: u32,
}

impl<'a, const COUNTS: usize> Trial<'a, COUNTS> {
    /// A trial on a box of so many data blocks.
    pub fn new(memory: &'a mut [u8], disk: &'a mut [u8], blocks: u32, now: u32) -> Self {
        let memory_before = memory.to_vec();
        Trial { memory, disk, blocks, now, memory_before, stored: Vec::with_capacity(MOST_STORES), given: 0 }
    }

    /// The first block that is free now and not the reserve: after the one last taken, going round.
    pub fn next_free(&self, last_taken: u32, reserve: u32) -> Option<u32> {
        let after = last_taken.saturating_add(1)..self.blocks;
        let up_to = 0..self.blocks.min(last_taken.saturating_add(1));
        after.chain(up_to).find(|block| self.allocatable(*block, reserve))
    }

    /// Whether two blocks are free now besides the reserve.
    pub fn two_free(&self, reserve: u32) -> bool {
        (0..self.blocks).filter(|block| self.allocatable(*block, reserve)).take(2).count() == 2
    }

    fn allocatable(&self, block: u32, reserve: u32) -> bool {
        block != reserve && controller::is_free::<COUNTS>(self.memory, self.disk, block, self.now)
    }

    /// An update with the current page and tag of the block's group, as kind 3 answers them.
    pub fn update<D: Digest>(&mut self, kind: u32, block: u32, value: u32, data: &[u8]) -> Result<(), Refusal> {
        self.given += 1;
        let (mut proof, mut answer) = ([0; PROOF_SIZE], [0; PROOF_SIZE]);
        self.give::<D>(PAGE, block / GROUP_DATA, 0, (&[], &[]), &mut proof)?;
        self.keep(block);
        self.give::<D>(kind, block, value, (data, &proof), &mut answer)
    }

    fn give<D: Digest>(
        &mut self,
        kind: u32,
        block: u32,
        value: u32,
        (data, proof): (&[u8], &[u8]),
        answer: &mut [u8],
    ) -> Result<(), Refusal> {
        let command = Command { kind, block, now: self.now, value, data, proof };
        match controller::command::<COUNTS, D>(self.memory, self.disk, &command, answer) {
            0 => Ok(()),
            number => Err(Refusal { number, command: self.given }),
        }
    }

    /// Keeps what an update may store on: the block, and the page of the group that is held. A page that is not held yet
    /// does not leave with its first update.
    fn keep(&mut self, block: u32) {
        if let Some(held) = Memory::<COUNTS>::of(self.memory).and_then(Memory::held) {
            self.keep_physical(65 * held + 64);
        }
        self.keep_physical((block + block / GROUP_DATA) as usize);
    }

    fn keep_physical(&mut self, place: usize) {
        self.stored.push((place, self.disk[place * BLOCK_SIZE..][..BLOCK_SIZE].try_into().unwrap()));
    }

    /// Memory and disk become what they were.
    pub fn take_back(mut self) {
        self.memory.copy_from_slice(&self.memory_before);
        while let Some((place, bytes)) = self.stored.pop() {
            self.disk[place * BLOCK_SIZE..][..BLOCK_SIZE].copy_from_slice(&bytes);
        }
    }
}
