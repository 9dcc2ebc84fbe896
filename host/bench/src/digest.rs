//! Throughput of the archive's digest as a ratio to other implementations, in one process and
//! interleaved. Above 1.00 the archive is faster.
use crate::median;
#[cfg(official)]
use crate::official;
use sockjade_host::{archive, blake3};
use std::hint::black_box;
use std::time::Instant;

const LENGTHS: [usize; 5] = [64, 556, 572, 1024, 65536];
const ROUNDS: usize = 1501;

type Digest = fn(&[u8], &mut [u8; 32]);

fn ours(input: &[u8], out: &mut [u8; 32]) {
    assert_eq!(archive::digest(input, out), 0);
}

fn host(input: &[u8], out: &mut [u8; 32]) {
    *out = blake3::digest(input);
}

fn others() -> Vec<(&'static str, Digest)> {
    #[allow(unused_mut)]
    let mut list: Vec<(&'static str, Digest)> = vec![("host", host)];
    #[cfg(official)]
    list.extend([
        ("portable", official::portable as Digest),
        ("SSE2", official::sse2),
        ("SSE4.1", official::sse41),
        ("AVX2", official::avx2),
        ("AVX-512", official::avx512),
    ]);
    list
}

/// Nanoseconds for one digest, over enough calls to be measured.
fn time(f: Digest, input: &[u8], calls: usize) -> f64 {
    let mut out = [0u8; 32];
    let began = Instant::now();
    for _ in 0..calls {
        f(black_box(input), &mut out);
        black_box(&out);
    }
    began.elapsed().as_nanos() as f64 / calls as f64
}

pub fn run() {
    let others = others();
    if others.len() == 1 {
        println!("(the official C code is not installed: Debian's librust-blake3-dev)");
    }
    print!("| bytes |");
    others.iter().for_each(|(name, _)| print!(" / {name} |"));
    println!("\n|---|{}", "---|".repeat(others.len()));
    for length in LENGTHS {
        let input: Vec<u8> = (0..length).map(|i| (i % 251) as u8).collect();
        let calls = (20_000 / (length + 64)).max(1);
        let mut ratios = vec![Vec::new(); others.len()];
        for _ in 0..ROUNDS {
            for (ratio, (_, other)) in ratios.iter_mut().zip(&others) {
                let a = time(ours, &input, calls);
                let b = time(*other, &input, calls);
                ratio.push(b / a);
            }
        }
        print!("| {length} |");
        ratios.iter_mut().for_each(|r| print!(" {:.2} |", median(r)));
        println!();
    }
}
