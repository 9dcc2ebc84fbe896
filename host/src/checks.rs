//! The comparison of commands and lists, whose checks `bin/commands.rs` runs, in `versions` that of the version store, in
//! `recovery` that of its recovery, in `migration` that of old boxes and what becomes of them, and in `script` that of scripts.
mod alone;
pub mod call;
pub mod edges;
pub mod effects;
pub mod leaving;
pub mod lengths;
pub mod limits;
pub mod lists;
pub mod migration;
pub mod model;
pub mod order;
pub mod pages;
pub mod pair;
pub mod places;
pub mod recovery;
pub mod report;
pub mod room;
pub mod runs;
pub mod script;
mod server;
pub mod situation;
pub mod stack;
pub mod table;
pub mod validity;
pub mod versions;

/// What a check says of itself, or the first difference.
pub type Checked = Result<String, String>;
