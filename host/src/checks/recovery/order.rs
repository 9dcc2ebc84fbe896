//! Every set of the questions 1, 2, 4 and 6 says no at once, each in several ways: the first in order is answered.
use super::super::call::MEMORY;
use super::super::places::PRESENT;
use super::super::versions::snapshot::Snapshot;
use super::super::versions::{LAST_TIME, NOW};
use super::super::Checked;
use super::walks::{Walk, Walks};
use super::{POINT, RESULT};

const QUESTIONS: [u32; 4] = [1, 2, 4, 6];
const TURNS: usize = 6;

pub fn check(walks: &mut Walks) -> Checked {
    let before = walks.made;
    for set in 0..1 << QUESTIONS.len() {
        let no: Vec<u32> = (0..).zip(QUESTIONS).filter(|(bit, _)| set >> bit & 1 == 1).map(|(_, number)| number).collect();
        for turns in 0..TURNS * TURNS {
            asked(walks, &no, turns % TURNS, turns / TURNS)?;
        }
    }
    Ok(format!("order of questions: {} walks", walks.made - before))
}

/// These questions say no: of memory and time in one way, of disk and result in another.
fn asked(walks: &mut Walks, no: &[u32], turn: usize, other: usize) -> Result<(), String> {
    let mut made = Snapshot::empty(1);
    made.log(0, &[(7, 0)], 1);
    let mut walk = Walk::new(POINT, NOW);
    for question in no {
        match question {
            1 => spoil_memory(&mut made.memory, &mut walk, turn),
            2 => walk.disk_len = Some([33_279, 33_281, 0, 512, 33_280 - 64, 33_280 + 64][other]),
            4 => walk.now = [LAST_TIME - 1, 0, 1, 1 << 31, 1 << 31 | NOW, u32::MAX][turn],
            _ => walk.result_len = [RESULT - 1, RESULT + 1, 0, 1, 256, 2 * RESULT][other],
        }
    }
    walks.load(&made);
    walks.expect_number(&walk, no.first().copied().unwrap_or(0))
}

fn spoil_memory(memory: &mut [u8], walk: &mut Walk, turn: usize) {
    match turn {
        0 => walk.memory_len = Some(MEMORY - 1),
        1 => walk.memory_len = Some(MEMORY + 1),
        2 => memory[PRESENT.groups] = 0,
        3 => memory[PRESENT.zero] = 1,
        4 => memory[PRESENT.last_time + 3] = 0x80,
        _ => memory[MEMORY - 1] = 1,
    }
}
