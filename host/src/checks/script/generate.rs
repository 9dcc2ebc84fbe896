//! Scripts made at random. Every line is tried on a box of the host's, so that most of them fit: the
//! time moves on slowly, updates go to few blocks, and most find the state that they need.
use super::with_header;
use crate::checks::call::LATEST;
use crate::controller::{ENTRY, IDENTIFY, INCREMENT, NEW_SALT, PAGE, READ, UNFREEZE, WRITE};
use crate::random::Random;
use crate::script::{DepotBox, Line};
use std::io::Write;

/// How often each kind comes, in order, of 100; the rest are kinds that there are not.
const WEIGHTS: [usize; 10] = [9, 17, 3, 22, 16, 15, 5, 4, 3, 3];
/// The same in a script that forgets to sync, so that pages leave by themselves.
const FORGETFUL: [usize; 10] = [6, 15, 2, 28, 22, 22, 0, 1, 0, 2];
const UNKNOWN: [u32; 8] = [0, 11, 255, 256 + 1, 256 + 4, 65_536 + 2, LATEST + 5, u32::MAX];
const LIMITS: [u32; 8] = [0, 1, LATEST - 1, LATEST, LATEST + 1, LATEST + 2, u32::MAX - 1, u32::MAX];
const LAST_EXPIRY: i64 = 4_294_967_295;
/// Updates of moderate values go to the blocks below this one; those near a limit, which may lock a
/// block for good, go to the others.
const FEW: usize = 6;
const BLOCKS: usize = 64;

/// A script of so many lines; a late one goes on to the end of time.
pub fn mixed(random: &mut Random, lines: usize, late: bool) -> Vec<u8> {
    let mut maker = Maker::new(random);
    let mut script = header();
    for place in 0..lines {
        let line = if late && place == 3 { maker.jump() } else { maker.line() };
        push_line(&mut script, &line);
    }
    script
}

/// One that forgets to sync.
pub fn forgetful(random: &mut Random, lines: usize) -> Vec<u8> {
    let mut maker = Maker { weights: &FORGETFUL, ..Maker::new(random) };
    let mut script = header();
    (0..lines).for_each(|_| push_line(&mut script, &maker.line()));
    script
}

/// A script of kinds 1 and 2 alone.
pub fn reads(random: &mut Random, lines: usize) -> Vec<u8> {
    let mut script = header();
    let mut now = 1000;
    for _ in 0..lines {
        now += random.below(3) as u32;
        let (kind, block) = (READ + random.below(2) as u32, random.below(BLOCKS) as u32);
        push_line(&mut script, &Line { kind, block, now, value: random.below(1000) as u32 });
    }
    script
}

pub fn header() -> Vec<u8> {
    with_header(b"")
}

pub fn push_line(script: &mut Vec<u8>, line: &Line) {
    let Line { kind, block, now, value } = line;
    writeln!(script, "{kind} {block} {now} {value}").expect("a vector takes all");
}

/// What `choices` has, one at random.
fn one_of<const N: usize>(random: &mut Random, choices: [u32; N]) -> u32 {
    choices[random.below(N)]
}

pub struct Maker<'a> {
    random: &'a mut Random,
    tried: DepotBox,
    weights: &'static [usize; 10],
}

impl<'a> Maker<'a> {
    pub fn new(random: &'a mut Random) -> Self {
        Maker { random, tried: DepotBox::formatted(), weights: &WEIGHTS }
    }

    pub fn line(&mut self) -> Line {
        let (kind, now, value) = (self.kind(), self.now(), self.value());
        let mut line = Line { kind, block: self.random.below(FEW) as u32, now, value };
        match kind {
            READ => line.block = self.random.below(BLOCKS) as u32,
            ENTRY => self.look(&mut line),
            PAGE => line.block = 0,
            WRITE | UNFREEZE | INCREMENT => self.fit(&mut line),
            NEW_SALT => line.value = one_of(self.random, [0, 1, 2, 256, 257, 511, 4_294_967_040, value]),
            _ => (line.block, line.value) = (self.any(), self.any()),
        }
        if self.random.below(12) == 0 {
            self.spoil(&mut line);
        }
        self.tried.send(&line);
        line
    }

    /// A line that leads near to the end of time.
    fn jump(&mut self) -> Line {
        let now = LATEST - self.random.below(3000) as u32;
        let line = Line { kind: IDENTIFY, block: 0, now, value: 0 };
        self.tried.send(&line);
        line
    }

    fn kind(&mut self) -> u32 {
        match self.random.weighted(self.weights) {
            Some(place) => place as u32 + 1,
            None => one_of(self.random, UNKNOWN),
        }
    }

    fn now(&mut self) -> u32 {
        let most = [1, 1, 1, 3, 3, 3, 40, 40, 40, 400][self.random.below(10)];
        (self.tried.last_time() + self.random.below(most) as u32).min(LATEST)
    }

    fn value(&mut self) -> u32 {
        let most = [1, 3, 10, 60, 60, 60, 60, 500, 500, 2000][self.random.below(10)];
        self.random.below(most) as u32
    }

    fn any(&mut self) -> u32 {
        let number = self.random.next() as u32;
        let choices = [0, 1, 64, number, number % 100, LIMITS[self.random.below(LIMITS.len())]];
        one_of(self.random, choices)
    }

    /// A block's state and time left at the last time.
    fn peek(&mut self, block: u32) -> (u8, i64) {
        let now = self.tried.last_time();
        let outcome = self.tried.send(&Line { kind: ENTRY, block, now, value: 0 });
        (outcome.state, outcome.left)
    }

    /// Looks at any block, or at one of the few, then often when its expiry comes.
    fn look(&mut self, line: &mut Line) {
        if self.random.below(4) == 0 {
            line.block = self.random.below(BLOCKS) as u32;
        }
        self.meet_expiry(line);
    }

    fn meet_expiry(&mut self, line: &mut Line) {
        let (state, left) = self.peek(line.block);
        if state == 2 && left < 5000 && self.random.below(3) == 0 {
            let around = left as u32 - 1 + self.random.below(3) as u32;
            line.now = (self.tried.last_time() + around).min(LATEST);
        }
    }

    /// Gives an update a block, after a few tries one that it may change.
    fn fit(&mut self, line: &mut Line) {
        let extreme = self.random.below(10) == 0;
        let blocks = if extreme { FEW..BLOCKS } else { 0..FEW };
        for _ in 0..8 {
            line.block = (blocks.start + self.random.below(blocks.len())) as u32;
            if self.fits(line) {
                break;
            }
        }
        if extreme {
            line.value = self.value_near_limit(line);
        } else if line.kind != UNFREEZE {
            self.meet_expiry(line);
        }
    }

    fn fits(&mut self, line: &Line) -> bool {
        let (state, left) = self.peek(line.block);
        let waited = i64::from(line.now - self.tried.last_time());
        let frozen = state == 1;
        match line.kind {
            WRITE => !frozen && left <= waited,
            UNFREEZE => frozen,
            _ => frozen || left > waited,
        }
    }

    /// A lock or a growth near what is just allowed.
    fn value_near_limit(&mut self, line: &Line) -> u32 {
        let (state, left) = self.peek(line.block);
        let room = match (line.kind, state) {
            (INCREMENT, 1) => i64::from(LATEST) - left,
            (INCREMENT, _) => LAST_EXPIRY - (left + i64::from(self.tried.last_time())),
            _ => i64::from(LATEST),
        };
        let near = (room - 1 + self.random.below(3) as i64).clamp(0, i64::from(u32::MAX)) as u32;
        let limit = LIMITS[self.random.below(LIMITS.len())];
        one_of(self.random, [near, near, near, limit])
    }

    /// Makes one thing wrong, or merely unusual.
    fn spoil(&mut self, line: &mut Line) {
        let (last, any) = (self.tried.last_time(), self.any());
        match self.random.below(6) {
            0 => line.kind = one_of(self.random, UNKNOWN),
            1 => {
                let earlier = last.saturating_sub(self.random.below(1000) as u32);
                line.now = one_of(self.random, [last.wrapping_sub(1), earlier, 0, LATEST + 1, LATEST + 2, u32::MAX]);
            }
            2 => line.block = one_of(self.random, [1, 63, 64, 65, 128, 256, 65_536, LATEST + 1, u32::MAX]),
            3 if line.kind != WRITE && line.kind != INCREMENT => line.value = any,
            4 => (line.kind, line.value) = (1 + self.random.below(10) as u32, self.value()),
            // Often refused by 9, at a time to which the box then does not come.
            _ => line.now = (last + 1 + self.random.below(100) as u32).min(LATEST),
        }
    }
}

#[cfg(test)]
mod tests {
    use super::{Maker, FORGETFUL};
    use crate::random::Random;

    /// In some thousand lines of a script that forgets to sync, pages leave by themselves.
    #[test]
    fn pages_leave_in_forgetful_scripts() {
        let mut random = Random::new(1);
        let mut maker = Maker { weights: &FORGETFUL, ..Maker::new(&mut random) };
        let mut left = 0;
        for _ in 0..5000 {
            let held = maker.tried.updates();
            let kind = maker.line().kind;
            left += usize::from(held == 63 && maker.tried.updates() == 0 && (4..=6).contains(&kind));
        }
        assert!(left >= 10, "{left} pages have left");
    }
}
