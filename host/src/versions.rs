//! The version store, request Q-3 of document 02 (there a keeper of versions), written from the papers alone and apart
//! from the Rattle code. It stands above the controller: it reads the box as it likes, and alters it by commands only.
//! They are given one after the other; where one is refused, those before it are taken back.
mod state;
#[cfg(test)]
mod tests;
mod trial;

use crate::controller::{ask_call, Digest, UNFREEZE, WRITE};
use state::{State, LAST_PART, MOST_PENDING, RECORD_SIZE};
use trial::Trial;

/// A log block's records, and the place of the pointer behind them.
const POINTER: usize = (MOST_PENDING + 1) * RECORD_SIZE;
const LOG_SIZE: usize = POINTER + 8;

type Log = [u8; LOG_SIZE];

/// The number answered, and which of the commands got it: 1 for the first, 0 for a question before them.
#[derive(Clone, Copy, Debug, PartialEq)]
pub struct Refusal {
    pub number: u32,
    pub command: u32,
}

impl From<u32> for Refusal {
    fn from(number: u32) -> Refusal {
        Refusal { number, command: 0 }
    }
}

/// Fills the state of a new store: 0, or the number of the question that said no.
pub fn start(state: &mut [u8], lock: u32) -> u32 {
    let Some(state) = State::of_mut(state) else {
        return 1;
    };
    if !State::lock_in_range(lock) {
        return 10;
    }
    state.start(lock);
    0
}

/// Stores a version of a part: its block.
pub fn put<const COUNTS: usize, D: Digest>(
    state: &mut [u8],
    memory: &mut [u8],
    disk: &mut [u8],
    part: u32,
    now: u32,
    content: &[u8],
) -> Result<u32, Refusal> {
    ask(part <= LAST_PART, 13)?;
    let state = ask_state::<COUNTS>(state)?;
    attempt::<COUNTS, _>(state, memory, disk, now, |state, trial| put_version::<COUNTS, D>(state, trial, part, content))
}

/// Stores the log block with the records that there are, if any.
pub fn flush<const COUNTS: usize, D: Digest>(
    state: &mut [u8],
    memory: &mut [u8],
    disk: &mut [u8],
    now: u32,
) -> Result<(), Refusal> {
    let state = ask_state::<COUNTS>(state)?;
    if state.pending() == 0 {
        return Ok(());
    }
    attempt::<COUNTS, _>(state, memory, disk, now, |state, trial| store_log::<COUNTS, D>(state, trial, log_of(state.records())))
}

/// The block of the part's newest version, or FF FF FF FF for none.
pub fn block<const COUNTS: usize>(state: &[u8], part: u32) -> Result<u32, u32> {
    ask(part <= LAST_PART, 13)?;
    let state = State::of(state).filter(|state| state.valid::<COUNTS>()).ok_or(1u32)?;
    Ok(state.newest(part).unwrap_or(u32::MAX))
}

#[inline]
fn ask(yes: bool, number: u32) -> Result<(), u32> {
    if yes { Ok(()) } else { Err(number) }
}

/// Question 1, of the state.
fn ask_state<const COUNTS: usize>(state: &mut [u8]) -> Result<&mut State, u32> {
    State::of_mut(state).filter(|state| state.valid::<COUNTS>()).ok_or(1)
}

/// Asks 1, 2, 4 and 14, and does the work. Where it is refused, state, memory and disk are as they were.
fn attempt<const COUNTS: usize, T>(
    state: &mut State,
    memory: &mut [u8],
    disk: &mut [u8],
    now: u32,
    work: impl FnOnce(&mut State, &mut Trial<COUNTS>) -> Result<T, Refusal>,
) -> Result<T, Refusal> {
    let blocks = ask_call::<COUNTS>(memory, disk, now)?;
    let mut trial = Trial::new(memory, disk, blocks, now);
    ask(trial.two_free(state.reserve()), 14)?;
    let mut after = *state;
    let done = work(&mut after, &mut trial);
    match done {
        Ok(_) => *state = after,
        Err(_) => trial.take_back(),
    }
    done
}

fn put_version<const COUNTS: usize, D: Digest>(
    state: &mut State,
    trial: &mut Trial<COUNTS>,
    part: u32,
    content: &[u8],
) -> Result<u32, Refusal> {
    let block = allocate(state, trial);
    trial.update::<D>(WRITE, block, state.lock(), content)?;
    if let Some(replaced) = state.newest(part) {
        trial.update::<D>(UNFREEZE, replaced, 0, &[])?;
    }
    state.take(part, block);
    let record = record(part, block);
    if state.pending() < MOST_PENDING {
        state.append(&record);
        return Ok(block);
    }
    let mut log = log_of(state.records());
    log[POINTER - RECORD_SIZE..POINTER].copy_from_slice(&record);
    store_log::<COUNTS, D>(state, trial, log)?;
    Ok(block)
}

/// Stores the log block in the reserve, with a pointer to the next one.
fn store_log<const COUNTS: usize, D: Digest>(
    state: &mut State,
    trial: &mut Trial<COUNTS>,
    mut log: Log,
) -> Result<(), Refusal> {
    let next = allocate(state, trial);
    log[POINTER..].copy_from_slice(&(next as u64).to_le_bytes());
    trial.update::<D>(WRITE, state.reserve(), state.lock(), &log)?;
    state.begin_log(next);
    Ok(())
}

/// By question 14 there is one: a log block is stored behind one version, and an unfreeze takes no free block away.
fn allocate<const COUNTS: usize>(state: &State, trial: &Trial<COUNTS>) -> u32 {
    trial.next_free(state.last_taken(), state.reserve()).expect("a free block")
}

#[inline]
fn record(part: u32, block: u32) -> [u8; RECORD_SIZE] {
    (part as u64 | (block as u64) << 32).to_le_bytes()
}

/// A log block of these records; those not used and the pointer are FF.
#[inline]
fn log_of(records: &[u8]) -> Log {
    let mut log = [0xFF; LOG_SIZE];
    log[..records.len()].copy_from_slice(records);
    log
}
