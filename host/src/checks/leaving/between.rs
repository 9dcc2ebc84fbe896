//! Something between two runs of updates, at each place: after 0 to 130 updates, of one group or of two by turns, comes a sync, a
//! restart, a new salt, an update of another group, a command that only looks, or one that is refused by each of the questions; then
//! updates until the page has left by itself and was updated again, a restart, and all is read. Memory, disk and answer are compared
//! after each, and the held page with the tester's own count.
//!
//! Found here: a page that leaves at another update than the 64th; a count that outlasts a sync, a restart, a new salt or another
//! group's update, or that a refused or a looking command raises; a page that has left and is still held, or of which bytes are left;
//! a 64th update without its data, its page on the disk, its freshness count or its answer.
use super::super::call::{number, page, Call, LATEST};
use super::super::lists::List;
use super::super::pair::Pair;
use super::super::places::last_time;
use super::super::Checked;
use super::{let_go, read_all, update, updated, Tally};

/// The updates before, at most: a page has left twice by then.
const MOST_BEFORE: u32 = 130;
/// The group of each update before, where two take turns: with each update, or after forty, which are not enough to leave.
const TURNS: [fn(u32) -> u32; 2] = [|turn| turn % 2, |turn| turn / 40 % 2];
/// The questions that a command can be refused by here. The count is not exhausted: `turns` has that.
const REFUSED: [u32; 10] = [7, 9, 1, 2, 3, 4, 5, 6, 10, 11];
/// Of what comes between, so many are tried where two groups take turns.
const FEW: usize = 6;

/// What comes between.
#[derive(Clone, Copy)]
enum Between {
    Nothing,
    LetGo(u32),
    OtherGroup,
    Looks,
    Refused(u32),
    RefusedList,
}

pub fn check(pair: &mut Pair) -> Checked {
    let start = pair.index;
    let mut list: Vec<Between> = [7, 8, 9].map(Between::LetGo).into();
    list.push(Between::OtherGroup);
    list.extend(REFUSED.map(Between::Refused));
    list.extend([Between::Nothing, Between::Looks, Between::RefusedList]);
    at_each_place(pair, &list, |_| 0)?;
    TURNS.into_iter().try_for_each(|group| at_each_place(pair, &list[..FEW], group))?;
    Ok(format!("updates with something between: {} calls", pair.index - start))
}

fn at_each_place(pair: &mut Pair, list: &[Between], group: fn(u32) -> u32) -> Result<(), String> {
    pair.load_formatted(2, &[1; 32])?;
    let mut tally = Tally::default();
    for before in 0..=MOST_BEFORE {
        let (memory, disk) = (pair.memory().to_vec(), pair.disk().to_vec());
        for between in list {
            pair.load(&memory, &disk);
            go_on(pair, tally, before, *between)?;
        }
        pair.load(&memory, &disk);
        updated(pair, &mut tally, group(before), before)?;
    }
    Ok(())
}

/// What comes after so many updates.
fn go_on(pair: &mut Pair, mut tally: Tally, before: u32, between: Between) -> Result<(), String> {
    match between {
        Between::Nothing => {}
        Between::LetGo(kind) => let_go(pair, &mut tally, kind)?,
        Between::OtherGroup => updated(pair, &mut tally, 1, before)?,
        Between::Looks => read_all(pair, &tally)?,
        Between::Refused(number) => {
            let call = refused(pair, before, number);
            pair.expect(&call, number)?;
        }
        Between::RefusedList => {
            let now = last_time(pair.memory());
            pair.expect_list(&List::new(&[0, 128], now), Err(5))?;
        }
    }
    tally.holds(pair)?;
    let held = if tally.group == 0 { tally.updates % 64 } else { 0 };
    for turn in before..before + 66 - held {
        updated(pair, &mut tally, 0, turn)?;
    }
    let_go(pair, &mut tally, 8)?;
    read_all(pair, &tally)
}

/// An update of group 0 that is refused by the question; for the last one, a new salt.
fn refused(pair: &Pair, turn: u32, number: u32) -> Call {
    let mut call = update(pair, 0, turn);
    let now = last_time(pair.memory());
    match number {
        1 => call.memory_len = Some(pair.memory().len() - 1),
        2 => call.disk_len = Some(pair.disk().len() - 1),
        3 => call.kind = 11,
        4 => call.now = if turn.is_multiple_of(2) { now.wrapping_sub(1) } else { LATEST + 1 },
        5 => call.block = 128,
        6 => call.proof.push(0),
        7 => call.proof[turn as usize % 544] ^= 1,
        9 => {
            let (kind, data) = if call.kind == 4 { (5, 0) } else { (4, 512) };
            call.kind = kind;
            call.data.resize(data, 7);
        }
        10 => call = pair.good(4, free_block(pair, now), now, LATEST + 1),
        _ => {
            call = Call::new(9, 0, now, 0);
            call.data.copy_from_slice(&pair.memory()[..32]);
        }
    }
    call
}

/// A block of group 0 that is free.
fn free_block(pair: &Pair, now: u32) -> u32 {
    let page = page(pair.memory(), pair.disk(), 0);
    let free = |block: &u32| number(page, 8 * *block as usize) <= now && page[8 * *block as usize + 4] % 2 == 1;
    (0..64).find(free).expect("a third as many blocks as updates are written")
}
