//! The script program under test, and a run of it.
use std::ffi::{c_int, c_short, c_ulong};
use std::io::{Read, Write};
use std::os::fd::AsRawFd;
use std::path::{Path, PathBuf};
use std::process::{Child, ChildStdin, ChildStdout, Command, ExitStatus, Stdio};
use std::thread;
use std::time::{Duration, Instant};

/// A run that prints nothing for longer has failed.
const LONGEST_SILENCE: c_int = 20_000;
/// And one that is not over for longer when it prints no more.
const LONGEST_END: Duration = Duration::from_secs(10);
/// What any pipe takes before it is read.
const PIPE: usize = 4096;

pub struct Program(PathBuf);

/// What a run printed, as far as was wanted, and how it ended.
pub struct Ran {
    pub printed: Vec<u8>,
    pub status: ExitStatus,
}

impl Program {
    pub fn find() -> Result<Program, String> {
        let path = Path::new(env!("CARGO_MANIFEST_DIR")).join("../crates/sockjade_script/out/sockjade_script");
        if path.is_file() {
            return Ok(Program(path));
        }
        Err(String::from("crates/sockjade_script/out/sockjade_script is missing: run `rt run` in crates/sockjade_script first"))
    }

    pub fn command(&self) -> Command {
        Command::new(&self.0)
    }

    /// Runs a script whose bytes come in pieces of these sizes, over and over, or at once where
    /// there are none. No more than `most` bytes of the printout are taken.
    pub fn run(&self, script: &[u8], pieces: &[usize], most: usize) -> Result<Ran, String> {
        let mut command = self.command();
        command.stdin(Stdio::piped()).stdout(Stdio::piped());
        let mut child = command.spawn().map_err(|e| format!("{} cannot be run: {e}", self.0.display()))?;
        let (input, output) = (child.stdin.take().unwrap(), child.stdout.take().unwrap());
        thread::scope(|scope| {
            if script.len() <= PIPE && pieces.is_empty() {
                feed(input, script, pieces);
            } else {
                scope.spawn(move || feed(input, script, pieces));
            }
            let read = read(output, most);
            let status = end(&mut child)?;
            Ok(Ran { printed: read?, status })
        })
    }
}

/// Writes the script. The program may stop reading at a bad line, so a broken pipe is no failure.
fn feed(mut input: ChildStdin, script: &[u8], pieces: &[usize]) {
    if pieces.is_empty() {
        let _ = input.write_all(script);
        return;
    }
    let mut rest = script;
    for size in pieces.iter().cycle() {
        let (piece, after) = rest.split_at(rest.len().min(*size));
        if piece.is_empty() || input.write_all(piece).is_err() {
            return;
        }
        wait_until_read(&input, Duration::from_millis(20));
        rest = after;
    }
}

/// Reads to the end of the printout, or to `most` bytes.
fn read(mut output: ChildStdout, most: usize) -> Result<Vec<u8>, String> {
    let mut printed = Vec::new();
    let mut part = [0; 16_384];
    while printed.len() < most {
        if !comes(&output) {
            return Err(format!("it printed nothing for {LONGEST_SILENCE} ms"));
        }
        match output.read(&mut part).map_err(|e| e.to_string())? {
            0 => break,
            length => printed.extend(&part[..length]),
        }
    }
    Ok(printed)
}

/// Waits for the end of a run that prints no more, and ends one that goes on.
fn end(child: &mut Child) -> Result<ExitStatus, String> {
    let began = Instant::now();
    while began.elapsed() < LONGEST_END {
        if let Some(status) = child.try_wait().map_err(|e| e.to_string())? {
            return Ok(status);
        }
        thread::yield_now();
    }
    child.kill().and_then(|()| child.wait()).map_err(|e| e.to_string())
}

#[repr(C)]
struct Poll {
    fd: c_int,
    events: c_short,
    found: c_short,
}

extern "C" {
    fn ioctl(fd: c_int, request: c_ulong, ...) -> c_int;
    fn poll(list: *mut Poll, length: c_ulong, milliseconds: c_int) -> c_int;
}

const FIONREAD: c_ulong = 0x541B;
const POLLIN: c_short = 1;

/// Waits for something to read, or the end of it; false where that takes too long.
fn comes(output: &ChildStdout) -> bool {
    let mut asked = Poll { fd: output.as_raw_fd(), events: POLLIN, found: 0 };
    // SAFETY: the list has the one member that it is said to have.
    unsafe { poll(&mut asked, 1, LONGEST_SILENCE) != 0 }
}

/// Waits until the program has taken all that is in the pipe, so that what is written next comes to
/// it as a piece of its own; false where that takes too long.
pub fn wait_until_read(input: &ChildStdin, longest: Duration) -> bool {
    let began = Instant::now();
    while began.elapsed() < longest {
        let mut waiting: c_int = 0;
        // SAFETY: FIONREAD stores an int, the number of bytes in the pipe.
        let known = unsafe { ioctl(input.as_raw_fd(), FIONREAD, &mut waiting) };
        if known == 0 && waiting == 0 {
            return true;
        }
        thread::yield_now();
    }
    false
}
