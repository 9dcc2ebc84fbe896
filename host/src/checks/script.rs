//! The comparison of the script program with this crate's interpreter: `bin/scripts.rs` runs these
//! checks.
pub mod bytes;
pub mod damage;
pub mod forms;
pub mod generate;
pub mod headers;
pub mod kept;
pub mod leaving;
pub mod long;
pub mod pieces;
pub mod program;
pub mod runs;
mod seen;
pub mod sizes;
pub mod tester;

use crate::script::{HEADER, PRINTED_HEADER};

/// A script of the right header and these bytes.
fn with_header(lines: &[u8]) -> Vec<u8> {
    [HEADER.as_bytes(), b"\n", lines].concat()
}

/// The printout that begins as it should and goes on like this.
fn with_printed_header(lines: &[u8]) -> Vec<u8> {
    [PRINTED_HEADER.as_bytes(), b"\n", lines].concat()
}
