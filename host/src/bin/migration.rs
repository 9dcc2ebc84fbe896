//! Compares the archive's migration of old boxes with this crate's, and then the archive with this crate's old box, side by side: the
//! numbers, answers, disks, states and results after each event. Arguments: SEED COUNT, the seed of the random runs and how many events
//! each of them has; with far fewer than the usual, some situation that they have to see does not come up. It stops at the first
//! difference; a run is a function of its seed. The last line has the counts for the gate.
use sockjade_host::checks::migration::{clauses, hand, lengths, memories, runs, stack, Migrations};
use sockjade_host::checks::report::{Check, Report};
use std::process::ExitCode;

const SEED: u64 = 1;
const COUNT: usize = 60_000;

fn main() -> ExitCode {
    let Some(mut report) = Report::begin("migration", SEED, COUNT) else {
        return ExitCode::FAILURE;
    };
    let (seed, count) = (report.seed, report.count);
    let checks: [Check<Migrations>; 10] = [
        &|_| hand::check(),
        &lengths::check,
        &clauses::check,
        &|migrations| memories::check(migrations, seed, count),
        &|_| runs::disks(seed),
        &|_| runs::updates(),
        &|_| runs::commands(seed, count),
        &|_| runs::stores(seed, count),
        &|_| runs::recoveries(seed, count / 2),
        &|_| stack::check(),
    ];
    report.run(&mut Migrations::default(), &checks);
    report.end()
}
