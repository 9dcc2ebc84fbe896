//! The controller memory: where its fields lie, and which memories are valid. A box of before document 02's Q-7 and one of since
//! then differ in the number of counts alone, from which the places behind them follow.
use std::mem;

/// The counts of a box: as many groups it can have.
pub const OLD: usize = 16;
pub const PRESENT: usize = 64;

pub const PAGE_SIZE: usize = 512;
/// The latest time there is: 2 × time + 1 fits four bytes.
pub const LATEST: u32 = 2_147_483_647;
/// No update is accepted from this count on.
pub const LAST_COUNT: u32 = 4_294_967_294;
/// A held page has had so many updates at most, by document 02's Q-4: with one more it leaves.
pub const MOST_UPDATES: u8 = 63;

pub type Page = [u8; PAGE_SIZE];
type Number = [u8; 4];

const NONE: u8 = 255;

/// The fields in their order. All are bytes, so there is nothing between them.
#[derive(Clone, Copy)]
#[repr(C)]
pub struct Memory<const COUNTS: usize> {
    salt: [u8; 32],
    counts: [Number; COUNTS],
    last_time: Number,
    groups: u8,
    held: u8,
    /// The updates to the held page.
    updates: u8,
    zero: u8,
    page: Page,
}

impl<const COUNTS: usize> Memory<COUNTS> {
    pub const SIZE: usize = mem::size_of::<Self>();
    const NO_COUNTS: &'static [Number; COUNTS] = &[[0; 4]; COUNTS];

    /// The slice as a memory, if it has the length.
    #[inline]
    pub fn of(bytes: &[u8]) -> Option<&Self> {
        // SAFETY: a memory is as many bytes, at any address and of any values.
        (bytes.len() == Self::SIZE).then(|| unsafe { &*(bytes.as_ptr() as *const Self) })
    }

    #[inline]
    pub fn of_mut(bytes: &mut [u8]) -> Option<&mut Self> {
        // SAFETY: as above.
        (bytes.len() == Self::SIZE).then(|| unsafe { &mut *(bytes.as_mut_ptr() as *mut Self) })
    }

    /// What formatting leaves.
    pub fn formatted(groups: u8, salt: [u8; 32]) -> Self {
        let (counts, page) = (*Self::NO_COUNTS, [0; PAGE_SIZE]);
        Memory { salt, counts, last_time: [0; 4], groups, held: NONE, updates: 0, zero: 0, page }
    }

    /// The same fields in a memory of more counts, which are 0: document 02's Q-7.
    pub fn widened<const MORE: usize>(&self) -> Memory<MORE> {
        let Memory { salt, last_time, groups, held, updates, zero, page, .. } = *self;
        let mut counts = *Memory::<MORE>::NO_COUNTS;
        counts[..COUNTS].copy_from_slice(&self.counts);
        Memory { salt, counts, last_time, groups, held, updates, zero, page }
    }

    /// Whether a box may have so many groups.
    pub fn groups_in_range(groups: u32) -> bool {
        (1..=COUNTS as u32).contains(&groups)
    }

    #[inline]
    pub fn valid(&self) -> bool {
        let groups = self.groups();
        if !Self::groups_in_range(groups as u32) || self.last_time() > LATEST || self.zero != 0 {
            return false;
        }
        if self.counts[groups..].as_flattened() != Self::NO_COUNTS[groups..].as_flattened() {
            return false;
        }
        match self.held() {
            None => self.updates == 0 && self.page == [0; PAGE_SIZE],
            Some(group) => {
                let counted = (1..=MOST_UPDATES).contains(&self.updates);
                group < groups && counted && (1..=LAST_COUNT).contains(&self.count(group))
            }
        }
    }

    pub fn groups(&self) -> usize {
        self.groups as usize
    }

    pub fn held(&self) -> Option<usize> {
        (self.held != NONE).then_some(self.held as usize)
    }

    pub fn held_page(&self) -> &Page {
        &self.page
    }

    /// How many updates were made to the held page.
    pub fn updates(&self) -> u8 {
        self.updates
    }

    /// The page of an update's group, which is the held one now, to be written. The update is counted.
    pub fn hold(&mut self, group: usize) -> &mut Page {
        let before = if self.held() == Some(group) { self.updates } else { 0 };
        self.updates = before + 1;
        self.held = group as u8;
        &mut self.page
    }

    pub fn drop_held(&mut self) {
        self.held = NONE;
        self.updates = 0;
        self.page.fill(0);
    }

    pub fn salt(&self) -> &[u8; 32] {
        &self.salt
    }

    pub fn set_salt(&mut self, salt: &[u8]) {
        self.salt.copy_from_slice(salt);
    }

    pub fn count(&self, group: usize) -> u32 {
        u32::from_le_bytes(self.counts[group])
    }

    pub fn raise_count(&mut self, group: usize) {
        self.counts[group] = (self.count(group) + 1).to_le_bytes();
    }

    pub fn clear_counts(&mut self) {
        self.counts = *Self::NO_COUNTS;
    }

    pub fn last_time(&self) -> u32 {
        u32::from_le_bytes(self.last_time)
    }

    pub fn set_last_time(&mut self, now: u32) {
        self.last_time = now.to_le_bytes();
    }
}
