//! Generated scripts of many lengths.
use super::generate::{forgetful, mixed};
use super::tester::Tester;
use crate::checks::Checked;
use crate::random::Random;

const LENGTHS: [usize; 10] = [3, 10, 10, 50, 50, 200, 500, 1000, 2000, 4000];

/// Scripts of so many lines in all.
pub fn check(tester: &mut Tester, seed: u64, count: usize) -> Checked {
    let mut random = Random::new(seed);
    let mut lines = 0;
    let mut scripts = 0;
    while lines < count {
        let longest = LENGTHS[random.below(LENGTHS.len())];
        let length = random.below(longest).min(count - lines);
        let mut script = match random.below(4) {
            0 => mixed(&mut random, length, true),
            1 => forgetful(&mut random, length),
            _ => mixed(&mut random, length, false),
        };
        if random.below(3) == 0 {
            script.pop();
        }
        let printed = tester.same(&script, &format!("generated script {scripts}"))?;
        tester.seen.note(&printed)?;
        lines += length;
        scripts += 1;
    }
    Ok(format!("{scripts} generated scripts of {lines} lines"))
}
