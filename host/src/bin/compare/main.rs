//! Compares the port with the Rust in one process, on random calls of every function. An answer must
//! have the Rust's bits, where a NaN equals any NaN; a refusal must be document 01's; and a place
//! that is not to be written must stay. It prints how often each function was called and the first
//! difference in full, and ends non-zero on any.
//!
//! Usage: `compare [SECONDS] [SEED]`

mod arithmetic;
mod grids;
mod locus;
mod panel;
mod responses;
mod scans;
mod summaries;
mod tally;

use std::env;
use std::process::ExitCode;
use std::time::{Duration, Instant};
use tally::Comparison;
use vectors::random::Random;

const SECONDS: u64 = 60;
const SEED: u64 = 1;

/// Calls of every function, more of those that take little.
fn turn(comparison: &mut Comparison, random: &mut Random, edges: &locus::Edges) {
    for _ in 0..100 {
        arithmetic::compare(comparison, random);
    }
    for _ in 0..20 {
        locus::compare_region(comparison, random);
        responses::compare(comparison, random);
        grids::compare(comparison, random);
        scans::compare(comparison, random);
        panel::compare(comparison, random);
    }
    for _ in 0..5 {
        locus::compare(comparison, random, edges);
        summaries::compare(comparison, random);
    }
    if random.below(8) == 0 {
        locus::compare_whole(comparison, random);
    }
}

/// The seconds and the seed.
fn arguments() -> Option<(u64, u64)> {
    let mut words = env::args().skip(1);
    let mut number = |default: u64| words.next().map_or(Some(default), |word| word.parse().ok());
    let arguments = (number(SECONDS)?, number(SEED)?);
    words.next().is_none().then_some(arguments)
}

fn main() -> ExitCode {
    let Some((seconds, seed)) = arguments() else {
        eprintln!("usage: compare [SECONDS] [SEED]");
        return ExitCode::from(2);
    };
    let mut random = Random::new(seed);
    let mut comparison = Comparison::default();
    let edges = locus::Edges::new(&mut random);
    let start = Instant::now();
    while start.elapsed() < Duration::from_secs(seconds) {
        turn(&mut comparison, &mut random, &edges);
    }
    comparison.print();
    match comparison.first() {
        None => {
            println!("no difference in {seconds} seconds with seed {seed}");
            ExitCode::SUCCESS
        }
        Some(first) => {
            println!("first difference: {first}");
            ExitCode::FAILURE
        }
    }
}
