//! What the comparisons and the benchmark share: the archive's functions, a BLAKE3, a controller, a
//! version store with its recovery and a script interpreter written apart from it, the comparisons of
//! commands, versions, recovery, migration and scripts, guarded buffers and random numbers.
pub mod archive;
pub mod arguments;
pub mod blake3;
pub mod checks;
pub mod controller;
pub mod guarded;
pub mod random;
pub mod recovery;
pub mod script;
pub mod versions;
