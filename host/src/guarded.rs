//! A buffer at a given offset from an aligned address, with canary bytes on both sides.

const CANARY: u8 = 0xC5;
const GUARD: usize = 64;

pub struct Guarded {
    whole: Vec<u8>,
    start: usize,
    original: Vec<u8>,
}

impl Guarded {
    /// A copy of `bytes` that starts `offset` bytes past a multiple of 64.
    pub fn new(bytes: &[u8], offset: usize) -> Self {
        let mut whole = vec![CANARY; bytes.len() + offset + 3 * GUARD];
        let aligned = whole.as_ptr().align_offset(GUARD);
        let start = aligned + GUARD + offset;
        whole[start..start + bytes.len()].copy_from_slice(bytes);
        Guarded { whole, start, original: bytes.to_vec() }
    }

    pub fn part(&self) -> &[u8] {
        &self.whole[self.start..self.start + self.original.len()]
    }

    pub fn part_mut(&mut self) -> &mut [u8] {
        &mut self.whole[self.start..self.start + self.original.len()]
    }

    /// Whether all canary bytes are still there.
    pub fn untouched_around(&self) -> bool {
        let end = self.start + self.original.len();
        self.whole[..self.start].iter().chain(&self.whole[end..]).all(|b| *b == CANARY)
    }

    /// Whether the buffer and all canary bytes are as they were.
    pub fn untouched(&self) -> bool {
        self.untouched_around() && self.part() == self.original
    }
}
