//! Compares the archive's version store with this crate's: every number, block and byte after every call. Arguments: SEED
//! COUNT, the seed of the random runs and how many calls they have; with far fewer than the usual, some situation that they
//! have to see does not come up. It stops at the first difference; a run is a function of its seed. The last line has the
//! counts for the gate.
use sockjade_host::checks::versions::stores::Stores;
use sockjade_host::checks::versions::{fields, hand, hostile, leaving, lengths, logs, order, runs, search, stack};
use sockjade_host::checks::report::{Check, Report};
use std::process::ExitCode;

const SEED: u64 = 1;
const COUNT: usize = 150_000;

fn main() -> ExitCode {
    let Some(mut report) = Report::begin("versions", SEED, COUNT) else {
        return ExitCode::FAILURE;
    };
    let (seed, count) = (report.seed, report.count);
    let checks: [Check<Stores>; 10] = [
        &|_| hand::check(),
        &lengths::check,
        &fields::check,
        &order::check,
        &search::check,
        &hostile::check,
        &leaving::check,
        &|stores| logs::check(stores, seed),
        &|_| runs::check(seed, count),
        &|_| stack::check(),
    ];
    report.run(&mut Stores::default(), &checks);
    report.end()
}
