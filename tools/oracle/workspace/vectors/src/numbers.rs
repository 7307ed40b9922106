//! Document 01's numbers: what an answer's number says, and the limits that refusals guard.

use oxictl::core::frequency_domain::FreqError;

/// The number of an answer that is a value.
pub const VALUE: u64 = 0;
/// The number of an answer that is none.
pub const NONE: u64 = 100;
/// The number of an answer that a summary does not keep.
pub const NOT_KEPT: u64 = 101;
/// Stands where there is no answer, as there was no question. Document 01 does not have it.
pub const NOT_ASKED: u64 = 255;

/// The refusals that the Rust has too.
pub const INSUFFICIENT_POINTS: u64 = 1;
pub const INVALID_FREQUENCY_RANGE: u64 = 2;
pub const INVALID_PARAMETER: u64 = 3;

/// The refusals that it has not.
pub const LENGTHS_DIFFER: u64 = 11;
pub const CUBIC: u64 = 12;
pub const TOO_FEW_PAIRS: u64 = 13;
pub const NO_ROOM: u64 = 14;
pub const TOO_MANY: u64 = 15;
pub const ORDER: u64 = 16;
pub const NO_SUCH_POINT: u64 = 17;
pub const LENGTH_OF_BYTES: u64 = 19;

pub const MAX_ORDER: u64 = 8;
/// As many readings a scan takes, and as many points a grid or a locus.
pub const MAX_POINTS: u64 = 4096;

/// The number of a refusal by the Rust.
pub fn own_refusal(error: FreqError) -> u64 {
    match error {
        FreqError::InsufficientPoints => INSUFFICIENT_POINTS,
        FreqError::InvalidFrequencyRange => INVALID_FREQUENCY_RANGE,
        FreqError::InvalidParameter => INVALID_PARAMETER,
        FreqError::OrderTooLarge => unreachable!("the Rust never returns it"),
    }
}

/// Stops the program if the Rust refuses what document 01 does not, or by another number, or does
/// not refuse what document 01 does by a number that both have.
pub fn assert_refused_alike<T>(answer: &Result<T, u64>, refusal: Option<u64>) {
    let own = refusal.filter(|&number| number <= INVALID_PARAMETER);
    assert_eq!(answer.as_ref().err(), own.as_ref());
}
