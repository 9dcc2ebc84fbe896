//! Pages that leave by themselves, document 02's request Q-4, with the printouts by hand. Block 0 is frozen on the disk under lock 0, and
//! each update adds 1 to its lock, so that the lock that a restart leaves is the number of updates kept: after so many of them comes
//! something else, then so many more, a restart, and the entry. Found here: a page that leaves at another update than the 64th, and a
//! count that is not begun anew, or is raised by what is no update.
use super::tester::Tester;
use super::{with_header, with_printed_header};
use crate::checks::Checked;
use std::fmt::Write;

const BEFORE: [u32; 12] = [0, 1, 2, 31, 32, 61, 62, 63, 64, 65, 66, 130];
const AFTER: [u32; 8] = [0, 1, 2, 62, 63, 64, 65, 128];

/// What comes between, and what is printed of it behind kind, block and time.
const NO_UPDATES: [(&str, &str); 10] = [
    ("1 0 100 0", "0 0 0"),
    ("3 0 100 0", "0 0 0"),
    ("10 0 100 0", "0 0 0"),
    ("11 0 100 0", "3 0 0"),
    ("6 0 99 1", "4 0 0"),
    ("6 64 100 1", "5 0 0"),
    ("4 0 100 1", "9 0 0"),
    ("5 63 100 1", "9 0 0"),
    ("6 0 100 4294967295", "10 0 0"),
    ("9 0 100 256", "11 0 0"),
];

/// A script, its printout, and the lock of block 0 on the disk.
struct Made {
    script: String,
    printed: String,
    lock: u32,
}

impl Made {
    fn new() -> Made {
        let mut made = Made { script: String::new(), printed: String::new(), lock: 0 };
        made.line("4 0 100 0", "0 0 0");
        made.line("7 0 100 0", "0 0 0");
        made
    }

    fn line(&mut self, line: &str, printed: &str) {
        let given = &line[..line.rfind(' ').expect("four values")];
        writeln!(self.script, "{line}").expect("a string takes all");
        writeln!(self.printed, "{given} {printed}").expect("a string takes all");
    }

    fn updates(&mut self, times: u32) {
        (0..times).for_each(|_| self.line("6 0 100 1", "0 0 0"));
    }

    /// A restart: of the updates so many are kept.
    fn restart(&mut self, kept: u32) {
        self.lock += kept;
        self.line("8 0 100 0", "0 0 0");
        self.line("2 0 100 0", &format!("0 1 {}", self.lock));
    }

    fn check(&self, tester: &mut Tester, place: &str) -> Result<(), String> {
        let (script, printed) = (with_header(self.script.as_bytes()), with_printed_header(self.printed.as_bytes()));
        tester.expect(&script, &printed, place)
    }
}

/// Of so many updates those up to the last multiple of 64 have left.
fn left(updates: u32) -> u32 {
    updates / 64 * 64
}

pub fn check(tester: &mut Tester) -> Checked {
    let began = tester.runs;
    for (line, printed) in NO_UPDATES {
        run(tester, line, |made, _| made.line(line, printed), |before, after| left(before + after))?;
    }
    run(tester, "entry", |made, before| made.line("2 0 100 0", &format!("0 1 {}", made.lock + before)), |before, after| left(before + after))?;
    run(tester, "sync", |made, _| made.line("7 0 100 0", "0 0 0"), |before, after| before + left(after))?;
    run(tester, "restart", |made, _| made.line("8 0 100 0", "0 0 0"), |before, after| left(before) + left(after))?;
    let mut salt = 0;
    let new_salt = |made: &mut Made, _| {
        salt = salt % 255 + 1;
        made.line(&format!("9 0 100 {salt}"), "0 0 0");
    };
    run(tester, "new salt", new_salt, |before, after| before + left(after))?;
    Ok(format!("{} scripts in which pages leave", tester.runs - began))
}

/// One script with each number of updates before and after what comes between. `kept` says how many a restart keeps.
fn run(
    tester: &mut Tester,
    place: &str,
    mut between: impl FnMut(&mut Made, u32),
    kept: impl Fn(u32, u32) -> u32,
) -> Result<(), String> {
    let mut made = Made::new();
    for (before, after) in BEFORE.into_iter().flat_map(|before| AFTER.map(|after| (before, after))) {
        made.updates(before);
        between(&mut made, before);
        made.updates(after);
        made.restart(kept(before, after));
    }
    made.check(tester, &format!("updates with {place} between"))
}
