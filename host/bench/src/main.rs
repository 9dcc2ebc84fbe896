//! How fast the archive is, next to other implementations: its digest, its commands, its lists, its
//! version store and its recovery; the script program; and two forms of the address map. The words
//! `digest`, `commands`, `lists`, `versions`, `recovery`, `script` and `map` run one part. Nothing here
//! passes or fails.
mod commands;
mod digest;
mod lists;
mod map;
#[cfg(official)]
mod official;
mod recovery;
mod script;
mod versions;

const PARTS: [(&str, fn()); 7] = [
    ("digest", digest::run),
    ("commands", commands::run),
    ("lists", lists::run),
    ("versions", versions::run),
    ("recovery", recovery::run),
    ("script", script::run),
    ("map", map::run),
];

/// A disk at the beginning of a page of the machine, as the time of a call hangs on its place. It is never given back.
fn aligned_disk(groups: usize) -> &'static mut [u8] {
    const PIECE: usize = 4096;
    let room = vec![0x5A; 33_280 * groups + PIECE].leak();
    let start = room.as_ptr().align_offset(PIECE);
    &mut room[start..][..33_280 * groups]
}

fn median(values: &mut [f64]) -> f64 {
    values.sort_by(f64::total_cmp);
    values[values.len() / 2]
}

fn main() {
    let words: Vec<String> = std::env::args().skip(1).collect();
    if words == [script::INTERPRET] {
        return script::interpret().expect("the interpreter's input and output");
    }
    if let Some(bad) = words.iter().find(|w| !PARTS.iter().any(|(name, _)| name == w)) {
        println!("unknown: {bad} ({})", PARTS.map(|(name, _)| name).join(", "));
        return;
    }
    for (name, run) in PARTS {
        if words.is_empty() || words.iter().any(|w| w == name) {
            run();
        }
    }
}
