//! Compares the port's `sqrt` and `abs` with the processor's, bit for bit, on patterns of every
//! kind. A NaN equals any NaN. It ends non-zero on any difference.
//!
//! Usage: `compare_sqrt [COUNT] [SEED]`

use bazintroa::random::Random;
use std::process::ExitCode;
use std::{env, thread};

const COUNT: u64 = 130_000_000;
const SEED: u64 = 1;

/// Fixed, so that the patterns follow from the count and the seed alone.
const THREADS: u64 = 2;

const SIGN: u64 = 1 << 63;
const INFINITY: u64 = 0x7ff << 52;

/// The name of a kind of pattern, and a function that draws one.
type Kind = (&'static str, fn(&mut Random) -> u64);

const KINDS: [Kind; 13] = [
    ("any", |random| random.bits()),
    ("positive", |random| random.bits() & !SIGN),
    ("negative", |random| random.bits() | SIGN),
    ("NaN", nan),
    ("subnormal", |random| random.up_to(52)),
    ("subnormal, near a square", subnormal_square),
    ("near a power of two", power_of_two),
    ("near 0, 1, 4, largest, infinity", landmark),
    ("near a square of 26 bits", |random| square(random, 26)),
    ("near a square of 27 bits", |random| square(random, 27)),
    ("near a square of 53 bits", |random| square(random, 53)),
    ("near r * (r + 1)", turning_point),
    ("root next to a midpoint", next_to_midpoint),
];

fn nan(random: &mut Random) -> u64 {
    (random.bits() & SIGN) | INFINITY | (1 + random.below((1 << 52) - 1))
}

/// A subnormal pattern is a multiple of 2^-1074, a power of four, so a square is one here too.
fn subnormal_square(random: &mut Random) -> u64 {
    let root = 2 + random.up_to(26);
    neighbour(random, root * root)
}

/// Just below it the significand is near 2^53 - 1, and from it on near 2^52.
fn power_of_two(random: &mut Random) -> u64 {
    let field = 1 + random.below(0x7ff);
    (field << 52) + random.below(32) - 16
}

fn landmark(random: &mut Random) -> u64 {
    let landmarks = [
        0.0,
        -0.0,
        1.0,
        4.0,
        f64::MAX,
        f64::INFINITY,
        f64::NEG_INFINITY,
    ];
    let landmark = landmarks[random.below(landmarks.len() as u64) as usize].to_bits();
    let distance = random.up_to(16);
    if random.below(2) == 0 {
        landmark.wrapping_add(distance)
    } else {
        landmark.wrapping_sub(distance)
    }
}

fn square(random: &mut Random, width: u32) -> u64 {
    let root = u128::from(random.of_width(width));
    let x = scaled(random, root * root);
    neighbour(random, x)
}

/// (r + 1/2)^2 less a quarter, for an r of 53 bits: near there the root turns from r to r + 1. Either
/// parity of the exponent occurs, since the product has 105 or 106 bits.
fn turning_point(random: &mut Random) -> u64 {
    let r = u128::from(random.of_width(53));
    let x = scaled(random, r * (r + 1));
    neighbour(random, x)
}

/// An x whose root is off the midpoint between two values by as little as can be. The midpoint is
/// s / 2 for an odd s of 54 bits, and x is (s^2 - d) / 4, which has 53 bits when d is s^2 modulo a
/// large power of two. Such an s is there for each d that is 1 modulo 8.
fn next_to_midpoint(random: &mut Random) -> u64 {
    loop {
        let multiple = 8 * random.up_to(40) as i64;
        let d = 1 + if random.below(2) == 0 {
            multiple
        } else {
            -multiple
        };
        // one bit of s at a time
        let mut s = random.below(8) | 1;
        for bit in 3..55 {
            if (s.wrapping_mul(s).wrapping_sub(d as u64) >> bit) & 1 == 1 {
                s += 1 << (bit - 1);
            }
        }
        let s = i128::from((1 << 53) | (s & ((1 << 53) - 1)));
        let four_x = (s * s - i128::from(d)) as u128;
        if four_x.leading_zeros() + four_x.trailing_zeros() >= 128 - 53 {
            return scaled(random, four_x);
        }
    }
}

/// n * 4^k rounded to 53 bits, for a random k: the digits of the root stay n's. n is not 0.
fn scaled(random: &mut Random, n: u128) -> u64 {
    let zeros = n.leading_zeros();
    let digits = n << zeros;
    let significand = (digits >> 75) as u64 + ((digits >> 74) & 1) as u64;
    // 2^0 has the field 1023, and n's leading digit stands at 127 - zeros
    let field = 2 * random.below(0x3ff) + 1 + u64::from((zeros + 1) % 2);
    ((field - 1) << 52) + significand
}

/// A pattern at most two units in the last place from `x`.
fn neighbour(random: &mut Random, x: u64) -> u64 {
    x + random.below(5) - 2
}

/// A pattern on which a function of the port differs from the processor's.
struct Difference {
    x: f64,
    port: f64,
    processor: f64,
}

/// How often a function differs, and where first.
#[derive(Default)]
struct Tally {
    differ: u64,
    first: Option<Difference>,
}

impl Tally {
    fn compare(&mut self, x: f64, port: f64, processor: f64) {
        let same = port.to_bits() == processor.to_bits() || (port.is_nan() && processor.is_nan());
        if !same {
            self.differ += 1;
            self.first.get_or_insert(Difference { x, port, processor });
        }
    }

    /// This tally and then another's.
    fn join(self, later: Tally) -> Tally {
        Tally {
            differ: self.differ + later.differ,
            first: self.first.or(later.first),
        }
    }

    fn print_first(&self, function: &str) {
        if let Some(first) = &self.first {
            println!(
                "  first: {function}({:e}), bits {:016x}: port {:e}, bits {:016x}; processor {:e}, bits {:016x}",
                first.x,
                first.x.to_bits(),
                first.port,
                first.port.to_bits(),
                first.processor,
                first.processor.to_bits(),
            );
        }
    }
}

#[derive(Default)]
struct Tallies {
    sqrt: Tally,
    abs: Tally,
}

/// Compares on `count` patterns in one thread.
fn compare(draw: fn(&mut Random) -> u64, count: u64, mut random: Random) -> Tallies {
    let mut tallies = Tallies::default();
    for _ in 0..count {
        let x = f64::from_bits(draw(&mut random));
        tallies.sqrt.compare(x, bazintroa::sqrt(x), x.sqrt());
        tallies.abs.compare(x, bazintroa::abs(x), x.abs());
    }
    tallies
}

/// Compares on `count` patterns in each thread.
fn compare_in_threads(draw: fn(&mut Random) -> u64, count: u64, seeds: &mut Random) -> Tallies {
    let threads: Vec<_> = (0..THREADS)
        .map(|_| {
            let random = Random::new(seeds.bits());
            thread::spawn(move || compare(draw, count, random))
        })
        .collect();
    threads
        .into_iter()
        .map(|thread| thread.join().expect("a thread panicked"))
        .fold(Tallies::default(), |earlier, later| Tallies {
            sqrt: earlier.sqrt.join(later.sqrt),
            abs: earlier.abs.join(later.abs),
        })
}

/// The count and the seed.
fn arguments() -> Option<(u64, u64)> {
    let mut words = env::args().skip(1);
    let mut number = |default: u64| words.next().map_or(Some(default), |word| word.parse().ok());
    let arguments = (number(COUNT)?, number(SEED)?);
    words.next().is_none().then_some(arguments)
}

fn main() -> ExitCode {
    let Some((count, seed)) = arguments() else {
        eprintln!("usage: compare_sqrt [COUNT] [SEED]");
        return ExitCode::from(2);
    };
    let for_each_thread = count.div_ceil(KINDS.len() as u64 * THREADS);
    let mut seeds = Random::new(seed);
    let mut compared = 0;
    let mut differ = 0;
    println!(
        "{:32} {:>12} {:>12} {:>12}",
        "kind", "patterns", "sqrt differs", "abs differs"
    );
    for (name, draw) in KINDS {
        let Tallies { sqrt, abs } = compare_in_threads(draw, for_each_thread, &mut seeds);
        let patterns = for_each_thread * THREADS;
        println!(
            "{name:32} {patterns:12} {:12} {:12}",
            sqrt.differ, abs.differ
        );
        sqrt.print_first("sqrt");
        abs.print_first("abs");
        compared += patterns;
        differ += sqrt.differ + abs.differ;
    }
    println!("{compared} patterns compared with seed {seed}, {differ} differences");
    if differ == 0 {
        ExitCode::SUCCESS
    } else {
        ExitCode::FAILURE
    }
}
