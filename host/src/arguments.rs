//! The words SEED and COUNT that a comparison takes.
use std::str::FromStr;

/// The seed and the count that were given, or the usual ones.
pub fn seed_and_count(seed: u64, count: usize) -> Result<(u64, usize), String> {
    Ok((argument(1, seed)?, argument(2, count)?))
}

fn argument<T: FromStr>(place: usize, usual: T) -> Result<T, String> {
    match std::env::args().nth(place) {
        None => Ok(usual),
        Some(word) => word.parse().map_err(|_| format!("not a number: {word}")),
    }
}
