//! The scripts of the repository: the printouts that are kept beside them are the interpreter's, and the program prints the same. One is
//! document 01's example, the `stdin` of `sockjade_script`. The others are the files in `data` of `script_tests`, and its `stdout` has
//! their printouts one after the other, in the order of the scripts' names.
use super::tester::{difference, Tester};
use crate::checks::Checked;
use std::fs;
use std::path::{Path, PathBuf};

/// The scripts of `script_tests` that must be there.
const FEWEST: usize = 10;

fn read(path: &Path) -> Result<Vec<u8>, String> {
    fs::read(path).map_err(|e| format!("{}: {e}", path.display()))
}

/// The files of a folder, by name.
fn files(folder: &Path) -> Result<Vec<PathBuf>, String> {
    let entries = fs::read_dir(folder).map_err(|e| format!("{}: {e}", folder.display()))?;
    let mut found: Vec<PathBuf> = entries.flatten().map(|entry| entry.path()).collect();
    found.sort();
    Ok(found)
}

pub fn check(tester: &mut Tester) -> Checked {
    let crates = Path::new(env!("CARGO_MANIFEST_DIR")).join("../crates");
    let (example, tests) = (crates.join("sockjade_script"), crates.join("script_tests"));
    tester.expect(&read(&example.join("stdin"))?, &read(&example.join("stdout"))?, "document 01's example")?;
    let scripts = files(&tests.join("data"))?;
    if scripts.len() < FEWEST {
        return Err(format!("script_tests has {} scripts, and not {FEWEST}", scripts.len()));
    }
    let mut printed = Vec::new();
    for script in &scripts {
        printed.extend(tester.same(&read(script)?, &script.display().to_string())?);
    }
    match difference(&read(&tests.join("stdout"))?, &printed) {
        None => Ok(format!("{} scripts of the repository", scripts.len() + 1)),
        Some(difference) => Err(format!("the stdout of script_tests: {difference}")),
    }
}
