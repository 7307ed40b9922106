//! Random numbers, lists and places, each in a heap block of exactly its size.

use bazintroa::random::Random;

/// Stands in a place before a call.
pub const MARK: u64 = 0x41D5_EED5_EED5_EED5;

/// Most often any bits; or a number about what is looked for.
pub fn number(random: &mut Random) -> f64 {
    let numbers = [
        0.0,
        -0.0,
        1.0,
        -1.0,
        -180.0,
        -3.0,
        f64::INFINITY,
        f64::NEG_INFINITY,
        f64::NAN,
    ];
    match random.below(32) as usize {
        i if i < numbers.len() => numbers[i],
        _ => f64::from_bits(random.bits()),
    }
}

/// A few, now and then about as many as are allowed.
pub fn length(random: &mut Random) -> usize {
    match random.below(4096) {
        0 => 4095 + random.below(4) as usize,
        _ => random.below(9) as usize,
    }
}

pub fn list(random: &mut Random, length: usize) -> Box<[f64]> {
    (0..length).map(|_| number(random)).collect()
}

/// Lists of one length, or one of them of another.
pub fn lists<const K: usize>(random: &mut Random) -> [Box<[f64]>; K] {
    let mut lengths = [length(random); K];
    if random.below(4) == 0 {
        lengths[random.below(K as u64) as usize] = length(random);
    }
    lengths.map(|length| list(random, length))
}

/// A place for one number.
pub fn place() -> Box<f64> {
    Box::new(f64::from_bits(MARK))
}

/// Whether the places hold what they held before a call.
pub fn stayed(places: &[f64]) -> bool {
    places.iter().all(|place| place.to_bits() == MARK)
}

/// A call that does not answer 0 must leave its place.
pub fn check(number: u32, places: &[f64]) {
    assert!(
        number == 0 || stayed(places),
        "{number} was answered, and written"
    );
}
