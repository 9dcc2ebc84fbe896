//! The comparison of recovery, document 02's request Q-6. Its checks are run by `bin/recovery.rs`.
mod attacker;
pub mod damaged;
pub mod hand;
pub mod intrusions;
pub mod lengths;
mod made;
mod office;
pub mod order;
pub mod records;
pub mod seen;
pub mod stack;
pub mod stops;
pub mod times;
mod trace;
pub mod validity;
pub mod walks;

/// The length of a result.
pub const RESULT: usize = 1024;
pub const PARTS: u32 = 256;
/// The point X of the checks by hand, and the time at which their blocks were written where nothing else is said.
pub const POINT: u32 = 3000;
pub const TIME: u32 = 2000;
