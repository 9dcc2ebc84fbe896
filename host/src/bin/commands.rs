//! Compares the archive's controller with this crate's: every number and byte after every command and
//! every list. Arguments: SEED COUNT, the seed of the random runs and how many commands and lists they
//! have. It stops at the first difference; a run is a function of its seed. The last line has the counts for the gate.
use sockjade_host::checks::pair::Pair;
use sockjade_host::checks::report::{Check, Report};
use sockjade_host::checks::{edges, effects, leaving, lengths, limits, lists, order, pages, runs, stack, validity};
use std::process::ExitCode;

const SEED: u64 = 1;
const COUNT: usize = 300_000;

fn main() -> ExitCode {
    let Some(mut report) = Report::begin("commands", SEED, COUNT) else {
        return ExitCode::FAILURE;
    };
    let (seed, count) = (report.seed, report.count);
    let checks: [Check<Pair>; 20] = [
        &|_| edges::check(),
        &|_| effects::check(),
        &|_| lists::hand::check(),
        &|_| leaving::hand::check(),
        &|_| leaving::stores::check(),
        &lengths::check,
        &validity::check,
        &order::check,
        &order::check_formatting,
        &limits::check,
        &pages::check,
        &leaving::between::check,
        &leaving::turns::check,
        &lists::order::check,
        &lists::lengths::check,
        &lists::limits::check,
        &|pair| lists::states::check(pair, seed),
        &|pair| runs::check(pair, seed, count),
        &|pair| pair.table.check(),
        &|_| stack::check(),
    ];
    let mut pair = Pair::default();
    report.run(&mut pair, &checks);
    pair.table.print();
    report.end()
}
