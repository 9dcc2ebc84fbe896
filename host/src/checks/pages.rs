//! Pages that are not the current one: stale, of another group or box, damaged. All get 7, but for a
//! page whose tag fits: the tester knows the salt.
use super::call::{even_page, proof, put_number, Call};
use super::pair::Pair;
use super::places::{last_time, PRESENT};
use super::Checked;

/// An update of `block` with another page and tag than the current ones.
fn with_proof(kind: u32, block: u32, now: u32, proof: &[u8]) -> Call {
    let mut call = Call::new(kind, block, now, 0);
    call.proof.copy_from_slice(proof);
    call
}

fn asked(pair: &mut Pair, group: u32) -> Result<Vec<u8>, String> {
    pair.expect(&Call::new(3, group, last_time(pair.memory()), 0), 0)?;
    Ok(pair.answer().to_vec())
}

pub fn check(pair: &mut Pair) -> Checked {
    let start = pair.index;
    stale(pair)?;
    crossed(pair)?;
    damaged(pair)?;
    lost(pair)?;
    brought(pair)?;
    Ok(format!("pages: {} calls", pair.index - start))
}

/// Three groups in turn, so that each update puts another's page on the disk. Every page of an
/// earlier time is refused, and the last answer is taken.
fn stale(pair: &mut Pair) -> Result<(), String> {
    pair.load_formatted(3, &[1; 32])?;
    let mut kept: Vec<Vec<u8>> = Vec::new();
    let mut current: Vec<Vec<u8>> = (0..3).map(|group| asked(pair, group)).collect::<Result<_, _>>()?;
    for turn in 0..60u32 {
        let group = turn % 3;
        let block = 64 * group + turn / 3;
        for old in &kept {
            pair.expect(&with_proof(4, block, 100, old), 7)?;
        }
        let update = with_proof(4, block, 100, &current[group as usize]);
        pair.expect(&update, 0)?;
        kept.push(std::mem::replace(&mut current[group as usize], pair.answer().to_vec()));
        if asked(pair, group)? != current[group as usize] {
            return Err(format!("command {}: kind 3 and the update answer two pages", pair.index));
        }
        match turn % 20 {
            7 => pair.expect(&Call::new(7, 0, 100, 0), 0)?,
            13 => pair.expect(&Call::new(1, block, 100, 0), 0)?,
            _ => {}
        }
    }
    Ok(())
}

/// Another group's page with its tag, this group's page with the other's tag, and pages of a box
/// with another salt, with the same pages and counts everywhere.
fn crossed(pair: &mut Pair) -> Result<(), String> {
    pair.load_formatted(2, &[2; 32])?;
    let foreign = asked(pair, 0)?;
    pair.load_formatted(2, &[3; 32])?;
    let pages = [asked(pair, 0)?, asked(pair, 1)?];
    for kind in [4, 5, 6] {
        pair.expect(&with_proof(kind, 64, 0, &pages[0]), 7)?;
        pair.expect(&with_proof(kind, 63, 0, &pages[1]), 7)?;
        pair.expect(&with_proof(kind, 0, 0, &foreign), 7)?;
    }
    pair.expect(&with_proof(4, 64, 0, &pages[1]), 0)?;
    // One group's page has changed: its tag with the other's page, and the reverse.
    let changed = pair.answer().to_vec();
    for kind in [4, 5, 6] {
        for block in [0, 64] {
            pair.expect(&with_proof(kind, block, 0, &[&changed[..512], &pages[0][512..]].concat()), 7)?;
            pair.expect(&with_proof(kind, block, 0, &[&pages[0][..512], &changed[512..]].concat()), 7)?;
        }
    }
    pair.expect(&with_proof(4, 0, 0, &pages[0]), 0)?;
    pair.expect(&with_proof(5, 64, 0, &changed), 0)
}

/// The current page and tag with one bit flipped, each in turn.
fn damaged(pair: &mut Pair) -> Result<(), String> {
    pair.load_formatted(1, &[4; 32])?;
    let page = asked(pair, 0)?;
    for bit in 0..8 * page.len() {
        let mut bad = page.clone();
        bad[bit / 8] ^= 1 << (bit % 8);
        pair.expect(&with_proof(4 + bit as u32 % 3, bit as u32 / 64 % 64, 0, &bad), 7)?;
    }
    pair.expect(&with_proof(4, 0, 0, &page), 0)
}

/// What a restart lost is refused, and so is every page from before a new salt; a tag under the
/// count before or after the present one too.
fn lost(pair: &mut Pair) -> Result<(), String> {
    pair.load_formatted(1, &[5; 32])?;
    let first = asked(pair, 0)?;
    pair.expect(&with_proof(4, 0, 0, &first), 0)?;
    let second = pair.answer().to_vec();
    pair.expect(&Call::new(8, 0, 0, 0), 0)?;
    pair.expect(&with_proof(4, 1, 0, &first), 7)?;
    pair.expect(&with_proof(4, 1, 0, &second), 7)?;
    // The restart fell back to the blank page of the disk: block 0 is free again.
    let third = asked(pair, 0)?;
    pair.expect(&with_proof(4, 0, 0, &third), 0)?;
    pair.expect(&Call::new(9, 0, 0, 6), 0)?;
    pair.expect(&with_proof(4, 1, 0, &third), 7)?;
    pair.expect(&Call::new(9, 0, 0, 6), 11)?;
    let last = asked(pair, 0)?;
    pair.expect(&with_proof(4, 1, 0, &last), 0)?;
    for count in [0, 2, 0x100, 0x0100_0000, u32::MAX] {
        let mut memory = pair.memory().to_vec();
        put_number(&mut memory, 32, count);
        let page = memory[PRESENT.page..].to_vec();
        pair.expect(&with_proof(4, 2, 0, &proof(&memory, 0, &page)), 7)?;
    }
    Ok(())
}

/// The page brought is what an update works on, with a tag that fits and another page current.
fn brought(pair: &mut Pair) -> Result<(), String> {
    let (free, frozen, counting) = (even_page(1000, 3), even_page(5, 2), even_page(1001, 3));
    for (kind, numbers) in [(4, [0, 9, 9]), (5, [9, 0, 9]), (6, [9, 0, 0])] {
        for (page, number) in [&free, &frozen, &counting].into_iter().zip(numbers) {
            for held in [false, true] {
                pair.load_formatted(2, &[6; 32])?;
                if held {
                    let first = pair.good(4, 65, 1000, 7);
                    pair.expect(&first, 0)?;
                }
                pair.expect(&with_proof(kind, 64, 1000, &proof(pair.memory(), 1, page)), number)?;
            }
        }
    }
    Ok(())
}
