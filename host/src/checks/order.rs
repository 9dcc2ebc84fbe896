//! Every set of the questions that are put to a kind says no at once: the first is answered.
use super::pair::Pair;
use super::situation::{put_to, situation, Questions, HELD};
use super::Checked;

pub fn check(pair: &mut Pair) -> Checked {
    let mut sets = 0;
    for kind in 1..=10 {
        let put = put_to(kind);
        for held in HELD {
            for set in 0..1 << put.len() {
                let no = put.iter().enumerate().map(|(bit, number)| (set >> bit & 1) << number).sum();
                let no = Questions(no);
                let made = situation(kind, held, no, sets);
                pair.load(&made.memory, &made.disk);
                pair.expect(&made.call, no.first())?;
                sets += 1;
            }
        }
    }
    Ok(format!("order: {sets} sets of questions"))
}

/// Formatting: the questions 1, 2 and 6.
pub fn check_formatting(pair: &mut Pair) -> Checked {
    let start = pair.index;
    for groups in [0, 1, 2, 3, 16, 17, 63, 64, 65, 66, 128, 255, 256, 257, 320, u32::MAX] {
        for memory in [0, 1, 616, 807, 808, 809, 1616] {
            for disk in disks(groups) {
                for salt in [0, 1, 31, 32, 33, 64] {
                    let number = if memory != 808 || !(1..=64).contains(&groups) {
                        1
                    } else if disk != groups as usize * 33_280 {
                        2
                    } else if salt != 32 {
                        6
                    } else {
                        0
                    };
                    pair.load(&vec![0xEE; memory], &vec![0xDD; disk]);
                    pair.expect_format(groups, &vec![0x77; salt], number)?;
                }
            }
        }
    }
    Ok(format!("formatting: {} calls", pair.index - start))
}

/// Lengths of a disk around that of so many groups; the large ones once.
fn disks(groups: u32) -> Vec<usize> {
    match groups {
        1..=3 => {
            let right = groups as usize * 33_280;
            vec![0, 1, right - 1, right, right + 1, right + 33_280]
        }
        16..=64 => vec![groups as usize * 33_280],
        65 => vec![0, 65 * 33_280],
        _ => vec![0, 33_280],
    }
}
