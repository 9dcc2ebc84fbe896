//! Every set of the questions that are put to a list says no at once: the first in order is answered.
use super::super::call::MEMORY;
use super::super::pair::Pair;
use super::super::places::PRESENT;
use super::super::Checked;
use super::{box_of, List, LAST_TIME, NONE, NOW};

const IN_ORDER: [u32; 6] = [1, 2, 4, 12, 5, 6];
/// In so many turns each way of one question to say no meets each way of another.
const TURNS: usize = 60;

pub fn check(pair: &mut Pair) -> Checked {
    let mut sets = 0;
    for held in [NONE, 0, 1] {
        let (memory, disk) = box_of(2, held);
        for set in 0..1 << IN_ORDER.len() {
            let no: Vec<u32> = (0..).zip(IN_ORDER).filter(|(bit, _)| set >> bit & 1 == 1).map(|(_, no)| no).collect();
            for turn in 0..TURNS {
                let mut memory = memory.clone();
                let list = spoiled(&mut memory, disk.len(), &no, turn);
                pair.load(&memory, &disk);
                pair.expect_list(&list, no.first().map_or(Ok(2), |first| Err(*first)))?;
                sets += 1;
            }
        }
    }
    Ok(format!("order of a list's questions: {sets} lists"))
}

/// A list of two groups to which these questions say no, in the way that `turn` chooses.
fn spoiled(memory: &mut [u8], disk_len: usize, no: &[u32], turn: usize) -> List {
    let mut list = List::new(&[70, 3, 70, 127, 64], NOW);
    if no.contains(&5) {
        list.put(turn, [128, 4096, 65_536 + 70, u32::MAX][turn % 4]);
    }
    if no.contains(&12) {
        // Five numbers thirteen times over are one too many.
        let bytes = [0, 3, 19, 21, 257, 260][turn % 6];
        list.blocks = list.blocks.repeat(13);
        list.blocks.truncate(bytes);
        list.answer_len = 9 * (bytes / 4);
    }
    if no.contains(&6) {
        let right = list.answer_len;
        list.answer_len = [right + 1, right + 9, right.checked_sub(1).unwrap_or(544)][turn % 3];
    }
    if no.contains(&4) {
        list.now = [LAST_TIME - 1, 2_147_483_648, u32::MAX][turn % 3];
    }
    if no.contains(&2) {
        list.disk_len = Some([disk_len - 1, disk_len + 1][turn % 2]);
    }
    if no.contains(&1) {
        match turn % 4 {
            // More updates than a held page can have, and some where none is held.
            0 => memory[PRESENT.updates] += 1,
            1 => memory[PRESENT.zero] = 1,
            2 => list.memory_len = Some(MEMORY - 1),
            _ => list.memory_len = Some(MEMORY + 1),
        }
    }
    list
}
