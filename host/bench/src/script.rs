//! Lines per second of the script program as a ratio to the host's interpreter, each in a process of
//! its own and by turns, from a file and to nowhere. Above 1.00 the program is faster. The seconds
//! are the processor's, so that other processes matter less. And the program's peak memory with a
//! short and with a long script.
use sockjade_host::checks::script::generate;
use sockjade_host::checks::script::program::{wait_until_read, Program};
use sockjade_host::random::Random;
use sockjade_host::script;
use std::ffi::{c_int, c_long};
use std::fs::{self, File};
use std::io::{self, BufWriter, Write};
use std::path::PathBuf;
use std::process::{self, Command, Stdio};
use std::thread;
use std::time::Duration;

const LINES: usize = 1_000_000;
const FEW_LINES: usize = 1_000;
const ROUNDS: usize = 7;
/// The word with which this program, started again, is the interpreter.
pub const INTERPRET: &str = "interpret";

pub fn interpret() -> io::Result<()> {
    script::run(&mut io::stdin().lock(), &mut BufWriter::new(io::stdout().lock()))
}

pub fn run() {
    let program = match Program::find() {
        Ok(program) => program,
        Err(missing) => return println!("script: {missing}"),
    };
    let mut random = Random::new(1);
    println!("| script of {LINES} lines | / interpreter | KiB at {FEW_LINES} lines | KiB at {LINES} |");
    println!("|---|---|---|---|");
    let all_kinds = generate::mixed(&mut random, LINES, false);
    let reads = generate::reads(&mut random, LINES);
    for (name, script) in [("all kinds", all_kinds), ("reads and entries", reads)] {
        match measure(&program, &script) {
            Ok((ratios, few, all)) => println!("| {name} | {} | {few} | {all} |", range(ratios)),
            Err(failure) => println!("| {name} | {failure} | | |"),
        }
    }
}

fn range(mut ratios: Vec<f64>) -> String {
    ratios.sort_by(f64::total_cmp);
    format!("{:.2} to {:.2}", ratios[0], ratios[ratios.len() - 1])
}

/// The ratios of all rounds, and the peak memory with few lines and with all.
fn measure(program: &Program, script: &[u8]) -> io::Result<(Vec<f64>, u64, u64)> {
    let kept = Kept::new(script)?;
    let mut interpreter = Command::new(std::env::current_exe()?);
    interpreter.arg(INTERPRET);
    let mut program_command = program.command();
    if printed(&mut program_command, &kept)? != printed(&mut interpreter, &kept)? {
        return Err(io::Error::other("the printouts differ"));
    }
    let mut ratios = Vec::new();
    for _ in 0..ROUNDS {
        let ours = time(&mut program_command, &kept)?;
        ratios.push(time(&mut interpreter, &kept)? / ours);
    }
    let few: Vec<u8> = script.split_inclusive(|byte| *byte == b'\n').take(1 + FEW_LINES).flatten().copied().collect();
    Ok((ratios, peak_memory(program, &few)?, peak_memory(program, script)?))
}

fn printed(command: &mut Command, script: &Kept) -> io::Result<Vec<u8>> {
    Ok(command.stdin(script.open()?).stdout(Stdio::piped()).output()?.stdout)
}

/// Seconds of the processor, the system's work counted, for a whole run.
fn time(command: &mut Command, script: &Kept) -> io::Result<f64> {
    let child = command.stdin(script.open()?).stdout(Stdio::null()).spawn()?;
    let (mut status, mut usage) = (0, Usage::default());
    // SAFETY: the child is waited for here alone; `usage` is laid out as the system fills it.
    let waited = unsafe { wait4(child.id() as c_int, &mut status, 0, &mut usage) };
    if waited != child.id() as c_int || status != 0 {
        return Err(io::Error::other(format!("the run ended with status {status}")));
    }
    let [seconds, micros] = [0, 1].map(|part| (usage.user[part] + usage.system[part]) as f64);
    Ok(seconds + micros / 1e6)
}

/// What a process used: seconds and microseconds, and numbers that are not needed.
#[repr(C)]
#[derive(Default)]
struct Usage {
    user: [c_long; 2],
    system: [c_long; 2],
    others: [c_long; 14],
}

extern "C" {
    fn wait4(process: c_int, status: &mut c_int, options: c_int, usage: &mut Usage) -> c_int;
}

/// The most KiB that the program had by when it had read the whole script; then only does its input
/// end. (What the system tells after a run counts the pages of the process that started it.)
fn peak_memory(program: &Program, script: &[u8]) -> io::Result<u64> {
    let mut child = program.command().stdin(Stdio::piped()).stdout(Stdio::null()).spawn()?;
    let mut input = child.stdin.take().unwrap();
    input.write_all(script)?;
    wait_until_read(&input, Duration::from_secs(60));
    thread::sleep(Duration::from_millis(200));
    let status = fs::read_to_string(format!("/proc/{}/status", child.id()))?;
    drop(input);
    child.wait()?;
    let peak = status.lines().find_map(|line| line.strip_prefix("VmHWM:"));
    let number = peak.and_then(|text| text.trim().trim_end_matches(" kB").parse().ok());
    number.ok_or(io::Error::other("the peak memory is not known"))
}

/// A script in a temporary file.
struct Kept(PathBuf);

impl Kept {
    fn new(script: &[u8]) -> io::Result<Kept> {
        let path = std::env::temp_dir().join(format!("sockjade-bench-{}.stdin", process::id()));
        fs::write(&path, script)?;
        Ok(Kept(path))
    }

    fn open(&self) -> io::Result<File> {
        File::open(&self.0)
    }
}

impl Drop for Kept {
    fn drop(&mut self) {
        let _ = fs::remove_file(&self.0);
    }
}
