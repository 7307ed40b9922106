//! Calls every function that reads or writes a list or a summary with damaged and random arguments, so
//! that valgrind, which watches it, sees whatever is touched and was not lent. Each list and place lies
//! in a heap block of exactly its size. It stops where a place is written that must stay.
//!
//! Usage: `damage [COUNT] [SEED]`

mod draw;
mod lists;
mod panel;
mod summaries;

use bazintroa::random::Random;
use std::env;
use std::process::ExitCode;

const COUNT: u64 = 10_000_000;
const SEED: u64 = 1;

/// Every kind of input, in turn.
const KINDS: [fn(&mut Random); 7] = [
    panel::entry,
    summaries::bode,
    summaries::sensitivity,
    summaries::curve,
    lists::scan,
    lists::grid,
    lists::response,
];

/// The count and the seed.
fn arguments() -> Option<(u64, u64)> {
    let mut words = env::args().skip(1);
    let mut number = |default: u64| words.next().map_or(Some(default), |word| word.parse().ok());
    let arguments = (number(COUNT)?, number(SEED)?);
    words.next().is_none().then_some(arguments)
}

fn main() -> ExitCode {
    let Some((count, seed)) = arguments() else {
        eprintln!("usage: damage [COUNT] [SEED]");
        return ExitCode::from(2);
    };
    let mut random = Random::new(seed);
    for (_, input) in (0..count).zip(KINDS.iter().cycle()) {
        input(&mut random);
    }
    println!("{count} inputs with seed {seed}");
    ExitCode::SUCCESS
}
