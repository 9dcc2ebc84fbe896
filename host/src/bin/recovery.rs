//! Compares the archive's recovery with this crate's: the number and every byte of the result, of memory and of disk after every walk.
//! Arguments: SEED COUNT, the seed of the random runs and how many walks they have; with far fewer than the usual, some situation that
//! they have to see does not come up. It stops at the first difference; a run is a function of its seed. The last line has the
//! counts for the gate.
use sockjade_host::checks::recovery::walks::Walks;
use sockjade_host::checks::recovery::{hand, intrusions, lengths, order, records, stack, stops, times, validity};
use sockjade_host::checks::report::{Check, Report};
use std::process::ExitCode;

const SEED: u64 = 1;
const COUNT: usize = 100_000;

fn main() -> ExitCode {
    let Some(mut report) = Report::begin("recovery", SEED, COUNT) else {
        return ExitCode::FAILURE;
    };
    let (seed, count) = (report.seed, report.count);
    let checks: [Check<Walks>; 9] = [
        &|_| hand::check(),
        &lengths::check,
        &validity::check,
        &order::check,
        &times::check,
        &stops::check,
        &records::check,
        &|_| intrusions::check(seed, count),
        &|_| stack::check(),
    ];
    report.run(&mut Walks::default(), &checks);
    report.end()
}
