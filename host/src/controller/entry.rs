//! An entry of a lock page, the block's state, and what an update makes of it.
use super::memory::Page;

const SIZE: usize = 8;
const LONGEST_LOCK: u64 = 2_147_483_647;
const LAST_EXPIRY: u64 = 4_294_967_295;

#[derive(Clone, Copy, PartialEq)]
pub enum State {
    Free = 0,
    Frozen = 1,
    Counting = 2,
}

pub enum Update {
    Write(u32),
    Unfreeze,
    Increment(u32),
}

#[derive(Clone, Copy)]
pub struct Entry {
    word: u32,
    /// 2 × time of write + f.
    stamp: u32,
}

impl Entry {
    #[inline]
    pub fn read(page: &Page, index: usize) -> Entry {
        let bytes = &page[SIZE * index..][..SIZE];
        Entry {
            word: u32::from_le_bytes(bytes[..4].try_into().unwrap()),
            stamp: u32::from_le_bytes(bytes[4..].try_into().unwrap()),
        }
    }

    #[inline]
    pub fn store(self, page: &mut Page, index: usize) {
        page[SIZE * index..][..SIZE].copy_from_slice(&self.bytes());
    }

    /// The entry of every block of a formatted box.
    #[inline]
    pub fn blank() -> Entry {
        Entry { word: 0, stamp: 1 }
    }

    #[inline]
    pub fn bytes(self) -> [u8; SIZE] {
        (self.word as u64 | (self.stamp as u64) << 32).to_le_bytes()
    }

    #[inline]
    pub fn time_of_write(self) -> u32 {
        self.stamp / 2
    }

    #[inline]
    fn frozen(self) -> bool {
        self.stamp & 1 == 0
    }

    #[inline]
    pub fn state(self, now: u32) -> State {
        if self.frozen() {
            State::Frozen
        } else if now < self.word {
            State::Counting
        } else {
            State::Free
        }
    }

    #[inline]
    pub fn time_left(self, now: u32) -> i64 {
        if self.frozen() {
            self.word as i64
        } else {
            self.word as i64 - now as i64
        }
    }

    /// The entry that an update stores, or the question that says no: 9 or 10.
    #[inline]
    pub fn updated(self, update: Update, now: u32) -> Result<Entry, u32> {
        let state = self.state(now);
        let (allowed, word, stamp) = match update {
            Update::Write(lock) => (state == State::Free, lock as u64, 2 * now),
            Update::Unfreeze => (state == State::Frozen, expiry(now, self.word), self.stamp | 1),
            Update::Increment(value) => (state != State::Free, self.word as u64 + value as u64, self.stamp),
        };
        if !allowed {
            return Err(9);
        }
        // The limit is that of what is to be stored: a lock or an expiry.
        let limit = if stamp & 1 == 0 { LONGEST_LOCK } else { LAST_EXPIRY };
        if word > limit {
            return Err(10);
        }
        Ok(Entry { word: word as u32, stamp })
    }
}

/// The expiry that an unfreeze gives, by document 02's Q-2: a lock of 1 or more lasts completed seconds.
#[inline]
fn expiry(now: u32, lock: u32) -> u64 {
    if lock == 0 { now as u64 } else { now as u64 + lock as u64 + 1 }
}

#[cfg(test)]
mod tests {
    use super::{Entry, Update};

    /// The word that an update stores in the place of another.
    fn stored(word: u32, f: u32, update: Update, now: u32) -> Result<u32, u32> {
        Entry { word, stamp: 2000 + f }.updated(update, now).map(|entry| entry.word)
    }

    #[test]
    fn an_unfreeze_gives_full_seconds() {
        let unfrozen = |lock, now| stored(lock, 0, Update::Unfreeze, now);
        assert_eq!([0, 1, 2, 500].map(|lock| unfrozen(lock, 1200)), [Ok(1200), Ok(1202), Ok(1203), Ok(1701)]);
        assert_eq!(unfrozen(2_147_483_647, 2_147_483_647), Ok(4_294_967_295));
        assert_eq!(unfrozen(2_147_483_648, 2_147_483_647), Err(10));
        assert_eq!(unfrozen(4_294_967_295, 0), Err(10));
    }

    #[test]
    fn an_increment_adds_its_value_alone() {
        let grown = |old, f, value| stored(old, f, Update::Increment(value), 1200);
        assert_eq!([grown(0, 0, 1), grown(500, 0, 100), grown(1701, 1, 100)], [Ok(1), Ok(600), Ok(1801)]);
        assert_eq!([grown(2_147_483_646, 0, 1), grown(2_147_483_647, 0, 1)], [Ok(2_147_483_647), Err(10)]);
        assert_eq!([grown(4_294_967_294, 1, 1), grown(4_294_967_295, 1, 1)], [Ok(4_294_967_295), Err(10)]);
    }
}
