//! Good scripts that were damaged in one or two places.
use super::generate::mixed;
use super::tester::Tester;
use crate::checks::Checked;
use crate::random::Random;

/// Bytes that a reader may take for others.
const BYTES: &[u8] = b"0123456789  \n\n\r\t\0+-,./:;_xe\x0b\x0c\x1f!\x7f\x80\x8a\xa0\xb0\xb1\xff";

pub fn check(tester: &mut Tester, seed: u64, count: usize) -> Checked {
    let mut random = Random::new(seed);
    let mut bad = 0;
    for place in 0..count {
        let most = [4, 20, 60][random.below(3)];
        let lines = random.below(most);
        let mut script = mixed(&mut random, lines, false);
        for _ in 0..1 + random.below(8) / 7 {
            damage(&mut script, &mut random);
        }
        let printed = tester.same(&script, &format!("damaged script {place}"))?;
        bad += usize::from(printed.windows(9).any(|part| part == b"bad line "));
    }
    Ok(format!("{count} damaged scripts, {bad} with a bad line"))
}

pub fn damage(script: &mut Vec<u8>, random: &mut Random) {
    if script.is_empty() {
        return;
    }
    let at = random.below(script.len());
    let byte = if random.below(4) == 0 { random.next() as u8 } else { BYTES[random.below(BYTES.len())] };
    match random.below(9) {
        0 | 1 => script[at] = byte,
        2 | 3 => script.insert(at, byte),
        4 => _ = script.remove(at),
        5 => script.insert(at, script[at]),
        6 => script.truncate(at),
        7 => damage_newline(script, at, random),
        _ => script[at] ^= 1 << random.below(8),
    }
}

/// Removes, doubles or replaces the newline that follows the place.
fn damage_newline(script: &mut Vec<u8>, at: usize, random: &mut Random) {
    let Some(place) = script[at..].iter().position(|byte| *byte == b'\n').map(|offset| at + offset) else {
        return;
    };
    match random.below(5) {
        0 => _ = script.remove(place),
        1 => script.insert(place, b'\n'),
        2 => script.insert(place, b'\r'),
        3 => script.insert(place, b' '),
        _ => script[place] = b' ',
    }
}
