//! A buffer with canary bytes on both sides that is filled again and again.

const CANARY: u8 = 0xC5;
pub const GUARD: usize = 128;
const ALIGNMENT: usize = 64;

#[derive(Clone)]
pub struct Room {
    whole: Vec<u8>,
    start: usize,
    len: usize,
}

impl Default for Room {
    fn default() -> Self {
        let mut room = Room { whole: Vec::new(), start: 0, len: 0 };
        room.make(0, 0);
        room
    }
}

impl Room {
    /// Takes a copy of `bytes` that starts `offset` bytes past a multiple of 64.
    pub fn put(&mut self, bytes: &[u8], offset: usize) {
        self.make(bytes.len(), offset);
        self.part_mut().copy_from_slice(bytes);
    }

    /// Becomes `len` times `byte`.
    pub fn fill(&mut self, len: usize, byte: u8, offset: usize) {
        self.make(len, offset);
        self.part_mut().fill(byte);
    }

    fn make(&mut self, len: usize, offset: usize) {
        let needed = ALIGNMENT + GUARD + offset + len + GUARD;
        if self.whole.len() < needed {
            self.whole = vec![CANARY; needed];
        }
        self.start = self.whole.as_ptr().align_offset(ALIGNMENT) + GUARD + offset;
        self.len = len;
        self.whole[self.start - GUARD..self.start].fill(CANARY);
        self.whole[self.start + len..][..GUARD].fill(CANARY);
    }

    pub fn part(&self) -> &[u8] {
        &self.whole[self.start..][..self.len]
    }

    pub fn part_mut(&mut self) -> &mut [u8] {
        &mut self.whole[self.start..][..self.len]
    }

    /// As many bytes from the start as are wanted: fewer than there are, or some canaries too.
    pub fn view_mut(&mut self, len: usize) -> &mut [u8] {
        &mut self.whole[self.start..self.start + self.len + GUARD][..len]
    }

    fn guarded(&self) -> &[u8] {
        &self.whole[self.start - GUARD..self.start + self.len + GUARD]
    }

    /// Where this room and its canaries first differ from another's, in words.
    pub fn difference(&self, other: &Room) -> Option<String> {
        if self.guarded() == other.guarded() {
            return None;
        }
        if self.len != other.len {
            return Some(format!("{} bytes instead of {}", self.len, other.len));
        }
        let (a, b) = (self.guarded(), other.guarded());
        let at = (0..a.len()).find(|i| a[*i] != b[*i])?;
        let byte = at as i64 - GUARD as i64;
        Some(format!("byte {byte} of {} is {:02x} instead of {:02x}", self.len, a[at], b[at]))
    }
}
