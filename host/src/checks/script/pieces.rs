//! Scripts that come through the pipe in pieces.
use super::damage;
use super::generate::mixed;
use super::tester::Tester;
use crate::checks::Checked;
use crate::random::Random;

/// Sizes of the pieces, with the lines of the scripts that come so.
const SIZES: [(usize, usize); 16] = [
    (1, 30), (2, 40), (3, 40), (5, 60), (7, 60), (16, 60), (20, 60), (21, 60), (22, 60), (64, 100), (511, 400),
    (512, 400), (513, 400), (4095, 1500), (4096, 1500), (4097, 1500),
];
const RANDOM: usize = 24;

pub fn check(tester: &mut Tester, seed: u64) -> Checked {
    let mut random = Random::new(seed);
    let began = tester.runs;
    for (size, lines) in SIZES {
        in_pieces(tester, &mut random, lines, &[size])?;
    }
    for _ in 0..RANDOM {
        let most = [4, 20, 60, 600][random.below(4)];
        let sizes: Vec<usize> = (0..40).map(|_| 1 + random.below(most)).collect();
        in_pieces(tester, &mut random, 2 * most, &sizes)?;
    }
    Ok(format!("{} scripts in pieces", tester.runs - began))
}

/// A good script with and without its last newline, and a damaged one.
fn in_pieces(tester: &mut Tester, random: &mut Random, lines: usize, sizes: &[usize]) -> Result<(), String> {
    let place = format!("pieces of {:?} bytes", &sizes[..sizes.len().min(4)]);
    let mut script = mixed(random, lines, false);
    tester.same_in_pieces(&script, sizes, &place)?;
    tester.same_in_pieces(&script[..script.len() - 1], sizes, &place)?;
    damage::damage(&mut script, random);
    tester.same_in_pieces(&script, sizes, &place)?;
    Ok(())
}
