//! Runs the script on standard input with the host's own interpreter and controller: what the script
//! program is to print.
use sockjade_host::script;
use std::io::{self, BufWriter};

fn main() -> io::Result<()> {
    script::run(&mut io::stdin().lock(), &mut BufWriter::new(io::stdout().lock()))
}
