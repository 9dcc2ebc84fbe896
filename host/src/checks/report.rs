//! How a comparison begins and ends: its seed and count, its checks one after the other, and the counts for the gate.
use super::Checked;
use crate::arguments::seed_and_count;
use std::process::ExitCode;

/// A check of a subject that the checks of a comparison have in common.
pub type Check<'a, T> = &'a dyn Fn(&mut T) -> Checked;

pub struct Report {
    name: &'static str,
    pub seed: u64,
    pub count: usize,
    counts: Vec<String>,
    failed: usize,
}

impl Report {
    /// With the seed and count given as arguments, or these. None where an argument is no number.
    pub fn begin(name: &'static str, seed: u64, count: usize) -> Option<Report> {
        match seed_and_count(seed, count) {
            Ok((seed, count)) => {
                println!("{name}: seed {seed}");
                Some(Report { name, seed, count, counts: Vec::new(), failed: 0 })
            }
            Err(bad) => {
                println!("{name}: {bad}");
                None
            }
        }
    }

    /// Runs the checks, up to the first difference.
    pub fn run<T>(&mut self, subject: &mut T, checks: &[Check<T>]) {
        for check in checks {
            match check(subject) {
                Ok(count) => self.counts.push(count),
                Err(difference) => {
                    println!("{}: seed {}, {difference}", self.name, self.seed);
                    self.failed = 1;
                    return;
                }
            }
        }
    }

    /// The last line.
    pub fn end(self) -> ExitCode {
        println!("{}: {}: {} passed, {} failed", self.name, self.counts.join(", "), self.counts.len(), self.failed);
        if self.failed == 0 { ExitCode::SUCCESS } else { ExitCode::FAILURE }
    }
}
