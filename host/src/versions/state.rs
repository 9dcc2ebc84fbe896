//! The version store's state: where its fields lie, and which states are valid.

pub const SIZE: usize = RECORDS + MOST_PENDING * RECORD_SIZE;
pub const LAST_PART: u32 = 255;
pub const RECORD_SIZE: usize = 8;
/// Records that wait between two calls, at most: with one more they are stored.
pub const MOST_PENDING: usize = 62;

const LONGEST_LOCK: u32 = 2_147_483_647;
const GROUP_DATA: u32 = 64;
const NONE: u32 = u32::MAX;

const LOCK: usize = 0;
const RESERVE: usize = 4;
const LAST_TAKEN: usize = 8;
const PENDING: usize = 12;
const NEWEST: usize = 16;
const RECORDS: usize = NEWEST + 4 * (LAST_PART as usize + 1);

#[derive(Clone, Copy)]
#[repr(transparent)]
pub struct State([u8; SIZE]);

impl State {
    /// The slice as a state, if it has the length.
    #[inline]
    pub fn of(bytes: &[u8]) -> Option<&State> {
        let bytes: &[u8; SIZE] = bytes.try_into().ok()?;
        // SAFETY: a state is these bytes and nothing else.
        Some(unsafe { &*(bytes as *const [u8; SIZE] as *const State) })
    }

    #[inline]
    pub fn of_mut(bytes: &mut [u8]) -> Option<&mut State> {
        let bytes: &mut [u8; SIZE] = bytes.try_into().ok()?;
        // SAFETY: as above.
        Some(unsafe { &mut *(bytes as *mut [u8; SIZE] as *mut State) })
    }

    /// Whether a write may have this lock.
    #[inline]
    pub fn lock_in_range(lock: u32) -> bool {
        (1..=LONGEST_LOCK).contains(&lock)
    }

    /// What a start leaves.
    pub fn start(&mut self, lock: u32) {
        self.0.fill(0xFF);
        self.set_number(LOCK, lock);
        self.begin_log(0);
    }

    /// Whether the state is of a store on a box of so many groups at most.
    pub fn valid<const COUNTS: usize>(&self) -> bool {
        let end = GROUP_DATA * COUNTS as u32;
        let pending = self.pending();
        if !Self::lock_in_range(self.lock()) || pending > MOST_PENDING {
            return false;
        }
        let (used, unused) = self.0[RECORDS..].split_at(pending * RECORD_SIZE);
        (0..=LAST_PART).all(|part| self.newest(part).is_none_or(|block| block < end))
            && used.chunks_exact(RECORD_SIZE).all(|record| record_in_range(record, end))
            && unused.iter().all(|byte| *byte == 0xFF)
    }

    #[inline]
    pub fn lock(&self) -> u32 {
        self.number(LOCK)
    }

    /// The block of the next log block.
    #[inline]
    pub fn reserve(&self) -> u32 {
        self.number(RESERVE)
    }

    #[inline]
    pub fn last_taken(&self) -> u32 {
        self.number(LAST_TAKEN)
    }

    /// How many records are not yet stored.
    #[inline]
    pub fn pending(&self) -> usize {
        self.number(PENDING) as usize
    }

    /// These records, in the order of their puts.
    #[inline]
    pub fn records(&self) -> &[u8] {
        &self.0[RECORDS..][..self.pending() * RECORD_SIZE]
    }

    /// The block of the part's newest version.
    #[inline]
    pub fn newest(&self, part: u32) -> Option<u32> {
        Some(self.number(NEWEST + 4 * part as usize)).filter(|block| *block != NONE)
    }

    /// The block is taken for the part's newest version.
    #[inline]
    pub fn take(&mut self, part: u32, block: u32) {
        self.set_number(NEWEST + 4 * part as usize, block);
        self.set_number(LAST_TAKEN, block);
    }

    #[inline]
    pub fn append(&mut self, record: &[u8; RECORD_SIZE]) {
        let pending = self.pending();
        self.0[RECORDS + pending * RECORD_SIZE..][..RECORD_SIZE].copy_from_slice(record);
        self.set_number(PENDING, pending as u32 + 1);
    }

    /// No records, and this block for the next log block.
    #[inline]
    pub fn begin_log(&mut self, reserve: u32) {
        self.set_number(RESERVE, reserve);
        self.set_number(LAST_TAKEN, reserve);
        self.set_number(PENDING, 0);
        self.0[RECORDS..].fill(0xFF);
    }

    #[inline]
    fn number(&self, at: usize) -> u32 {
        u32::from_le_bytes(self.0[at..at + 4].try_into().unwrap())
    }

    #[inline]
    fn set_number(&mut self, at: usize, number: u32) {
        self.0[at..at + 4].copy_from_slice(&number.to_le_bytes());
    }
}

/// `end` is the number of data blocks.
#[inline]
fn record_in_range(record: &[u8], end: u32) -> bool {
    let [part, block] = [0, 4].map(|at| u32::from_le_bytes(record[at..at + 4].try_into().unwrap()));
    part <= LAST_PART && block < end
}
