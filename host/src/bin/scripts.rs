//! Compares what the script program prints with what this crate's interpreter does, byte by byte.
//! Arguments: SEED COUNT, the seed of the random scripts and how many lines the generated ones have.
//! A check ends at its first difference, and the script is then left in a temporary file. The last
//! line has the counts for the gate.
use sockjade_host::arguments::seed_and_count;
use sockjade_host::checks::script::tester::Tester;
use sockjade_host::checks::script::{bytes, damage, forms, headers, kept, leaving, long, pieces, runs, sizes};
use sockjade_host::checks::Checked;
use std::process::ExitCode;

const SEED: u64 = 1;
const COUNT: usize = 200_000;
/// A damaged script for so many generated lines.
const LINES_FOR_DAMAGED: usize = 100;

type Check<'a> = &'a dyn Fn(&mut Tester) -> Checked;

fn prepare() -> Result<(Tester, u64, usize), String> {
    let (seed, count) = seed_and_count(SEED, COUNT)?;
    Ok((Tester::new(seed)?, seed, count))
}

fn main() -> ExitCode {
    let (mut tester, seed, count) = match prepare() {
        Ok(prepared) => prepared,
        Err(failure) => {
            println!("scripts: {failure}\nscripts: 0 passed, 1 failed");
            return ExitCode::FAILURE;
        }
    };
    println!("scripts: seed {seed}");
    let checks: [Check; 11] = [
        &kept::check,
        &headers::check,
        &forms::check,
        &bytes::check,
        &long::check,
        &leaving::check,
        &|tester| runs::check(tester, seed, count),
        &|tester| tester.seen.check(),
        &|tester| damage::check(tester, seed, count / LINES_FOR_DAMAGED),
        &|tester| pieces::check(tester, seed),
        &|tester| sizes::check(tester, seed),
    ];
    let mut counts = Vec::new();
    let mut failed = 0;
    for check in checks {
        match check(&mut tester) {
            Ok(count) => counts.push(count),
            Err(difference) => {
                println!("scripts: seed {seed}, {difference}");
                failed += 1;
            }
        }
    }
    println!("scripts: {}: {} passed, {failed} failed", counts.join(", "), counts.len());
    if failed == 0 { ExitCode::SUCCESS } else { ExitCode::FAILURE }
}
