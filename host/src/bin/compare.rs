//! Compares the archive with the implementations of this crate, and prints one line with its counts:
//! the gate adds `N passed, M failed` at its end to the toolchain's own. On the first difference of
//! a check it says in one line what differed and where.
use sockjade_host::guarded::Guarded;
use sockjade_host::random::Random;
use sockjade_host::{archive, blake3};
use std::process::ExitCode;

const LONGEST: usize = 65536;
const EVERY_LENGTH_TO: usize = 4200;
const RANDOM_LENGTHS: usize = 2000;

type Checked = Result<String, String>;

/// Byte i of the published test vectors is i mod 251.
fn pattern(length: usize) -> Vec<u8> {
    (0..length).map(|i| (i % 251) as u8).collect()
}

fn hex(bytes: &[u8]) -> String {
    bytes.iter().map(|b| format!("{b:02x}")).collect()
}

/// This crate's own BLAKE3 against the digests that b3sum wrote, so that the two implementations
/// compared below are not wrong alike.
fn own_against_b3sum() -> Checked {
    let text = include_str!("../../../crates/blake3_vectors/stdout");
    for line in text.lines() {
        let (length, expected) = line.split_once(' ').ok_or(format!("bad vector line: {line}"))?;
        let length: usize = length.parse().map_err(|_| format!("bad vector line: {line}"))?;
        let got = hex(&blake3::digest(&pattern(length)));
        if got != expected {
            return Err(format!("the host's own digest of {length} bytes is {got}, and b3sum's {expected}"));
        }
    }
    Ok(format!("{} of b3sum's vectors", text.lines().count()))
}

/// One call with the input and the room at given offsets from an aligned address.
fn compare(input: &[u8], in_offset: usize, out_offset: usize) -> Result<(), String> {
    let input = Guarded::new(input, in_offset);
    let mut out = Guarded::new(&[0x5A; 32], out_offset);
    let answer = archive::digest(input.part(), out.part_mut());
    let expected = blake3::digest(input.part());
    let place = || format!("{} bytes at offset {in_offset}, room at offset {out_offset}", input.part().len());
    if answer != 0 {
        return Err(format!("{}: answered {answer}", place()));
    }
    if out.part() != expected {
        return Err(format!("{}: {} instead of {}", place(), hex(out.part()), hex(&expected)));
    }
    if !input.untouched() || !out.untouched_around() {
        return Err(format!("{}: a byte outside the room was changed", place()));
    }
    Ok(())
}

fn every_length(offset: usize) -> Checked {
    let input = pattern(EVERY_LENGTH_TO);
    for length in 0..=EVERY_LENGTH_TO {
        compare(&input[..length], offset, offset)?;
    }
    Ok(format!("lengths 0 to {EVERY_LENGTH_TO} at offset {offset}"))
}

fn random_lengths() -> Checked {
    let mut random = Random::new(3);
    let mut input = vec![0; LONGEST];
    for _ in 0..RANDOM_LENGTHS {
        let length = random.below(LONGEST + 1);
        random.fill(&mut input[..length]);
        compare(&input[..length], random.below(16), random.below(16))?;
    }
    Ok(format!("{RANDOM_LENGTHS} random lengths to {LONGEST}"))
}

/// Every pair of an input's and a room's length around the limits: refused by 6 with no byte
/// changed, or accepted.
fn limits() -> Checked {
    let inputs = [0, 1, LONGEST - 1, LONGEST, LONGEST + 1, LONGEST + 64, 3 * LONGEST];
    let rooms = [0, 1, 31, 32, 33, 64, 1000];
    let mut refused = 0;
    for input_len in inputs {
        for room_len in rooms {
            if input_len <= LONGEST && room_len == 32 {
                compare(&pattern(input_len), 1, 3)?;
                continue;
            }
            let input = Guarded::new(&pattern(input_len), 5);
            let mut out = Guarded::new(&pattern(room_len), 7);
            let answer = archive::digest(input.part(), out.part_mut());
            if answer != 6 {
                return Err(format!("{input_len} bytes, room for {room_len}: answered {answer} instead of 6"));
            }
            if !input.untouched() || !out.untouched() {
                return Err(format!("{input_len} bytes, room for {room_len}: the refusal changed a byte"));
            }
            refused += 1;
        }
    }
    Ok(format!("{refused} refusals"))
}

fn main() -> ExitCode {
    let checks: [&dyn Fn() -> Checked; 5] =
        [&own_against_b3sum, &|| every_length(0), &|| every_length(3), &random_lengths, &limits];
    let mut counts = Vec::new();
    let mut failed = 0;
    for check in checks {
        match check() {
            Ok(count) => counts.push(count),
            Err(difference) => {
                failed += 1;
                println!("host: {difference}");
            }
        }
    }
    println!("host: {}: {} passed, {failed} failed", counts.join(", "), counts.len());
    if failed == 0 { ExitCode::SUCCESS } else { ExitCode::FAILURE }
}
