//! Why a call is turned away, and what its number says.

use std::error::Error;
use std::fmt;

/// Why a call is turned away. A call that is turned away writes to nothing it was lent.
///
/// More refusals may come, so a match has an arm for those that it does not name:
///
/// ```
/// use bazintroa::{phase_margin, Refusal};
///
/// let said = match phase_margin(&[1.0, 2.0], &[6.0, -2.0], &[-90.0]) {
///     Ok(Some(margin)) => format!("{margin} degrees"),
///     Ok(None) => "none".into(),
///     Err(Refusal::TooMany) => "take fewer readings".into(),
///     Err(other) => format!("refused with {}: {other}", other.number()),
/// };
/// assert_eq!(said, "refused with 11: the lists differ in length");
/// ```
///
/// Without one it does not compile, though it names all that there are:
///
/// ```compile_fail,E0004
/// use bazintroa::Refusal::{self, *};
///
/// fn is_of_lists(refusal: Refusal) -> bool {
///     match refusal {
///         LengthsDiffer | TooFewPairs | NoRoom | TooMany | WrongByteCount => true,
///         InsufficientPoints | InvalidFrequencyRange | InvalidParameter => false,
///         CubicLeftOut | WrongOrder | WrongIndex => false,
///     }
/// }
/// ```
#[derive(Clone, Copy, Debug, PartialEq, Eq, Hash)]
#[non_exhaustive]
#[repr(u32)]
pub enum Refusal {
    /// 1: fewer than 2 points of a grid or a locus are asked for.
    InsufficientPoints = 1,
    /// 2: the highest frequency of a grid is 0 or below. A NaN passes.
    InvalidFrequencyRange = 2,
    /// 3: the largest gain of a grid or a locus is 0 or below, where a NaN passes; or the order of a
    /// locus is above 8.
    InvalidParameter = 3,
    /// 11: lists of a call that must be of one length are not.
    LengthsDiffer = 11,
    /// 12: the polynomial of a point of the locus is of degree 3, whose roots are left out.
    CubicLeftOut = 12,
    /// 13: there are fewer cosines and sines than the largest order plus 1.
    TooFewPairs = 13,
    /// 14: the list lent for a grid is shorter than its number of points; or the answer lent to the
    /// panel has fewer than 8 bytes.
    NoRoom = 14,
    /// 15: more than 4,096 readings, points of a curve, or points of a grid or a locus.
    TooMany = 15,
    /// 16: the order of a locus is 0; or that of a transfer function that is evaluated, alone or in a
    /// loop, is above 8.
    WrongOrder = 16,
    /// 17: the index of a point of the locus is not below their number.
    WrongIndex = 17,
    /// 19: the panel's readings are a number of bytes that is no multiple of 24.
    WrongByteCount = 19,
}

impl Refusal {
    const ALL: [Refusal; 11] = [
        Refusal::InsufficientPoints,
        Refusal::InvalidFrequencyRange,
        Refusal::InvalidParameter,
        Refusal::LengthsDiffer,
        Refusal::CubicLeftOut,
        Refusal::TooFewPairs,
        Refusal::NoRoom,
        Refusal::TooMany,
        Refusal::WrongOrder,
        Refusal::WrongIndex,
        Refusal::WrongByteCount,
    ];

    /// The number by which document 01 calls it.
    ///
    /// ```
    /// use bazintroa::Refusal;
    ///
    /// assert_eq!(Refusal::LengthsDiffer.number(), 11);
    /// assert_eq!(Refusal::LengthsDiffer.to_string(), "the lists differ in length");
    /// ```
    pub fn number(self) -> u32 {
        self as u32
    }

    /// The refusal with this number, if it is one. The entries of [`panel`](crate::panel) answer by
    /// a number.
    ///
    /// ```
    /// use bazintroa::{panel, Refusal};
    ///
    /// let number = panel::gain_crossover(&[0; 25], &mut [0; 8]);
    /// assert_eq!(Refusal::from_number(number), Some(Refusal::WrongByteCount));
    /// assert_eq!(Refusal::from_number(100), None);
    /// ```
    pub fn from_number(number: u32) -> Option<Self> {
        Self::ALL
            .into_iter()
            .find(|refusal| refusal.number() == number)
    }
}

impl fmt::Display for Refusal {
    fn fmt(&self, f: &mut fmt::Formatter<'_>) -> fmt::Result {
        f.write_str(match self {
            Refusal::InsufficientPoints => "fewer than 2 points are asked for",
            Refusal::InvalidFrequencyRange => "the highest frequency is 0 or below",
            Refusal::InvalidParameter => "the largest gain is 0 or below, or the order is above 8",
            Refusal::LengthsDiffer => "the lists differ in length",
            Refusal::CubicLeftOut => "the polynomial is of degree 3, whose roots are left out",
            Refusal::TooFewPairs => {
                "there are fewer cosines and sines than the largest order plus 1"
            }
            Refusal::NoRoom => "the lent list is too short for what is to be written",
            Refusal::TooMany => "there are more than 4,096 readings or points",
            Refusal::WrongOrder => "the order of a locus is 0, or one that is evaluated is above 8",
            Refusal::WrongIndex => "there is no point with this index",
            Refusal::WrongByteCount => "the number of bytes is no multiple of 24",
        })
    }
}

impl Error for Refusal {}

/// The value that a call left in its place, or why there is none.
#[inline]
pub(crate) fn value<T>(number: u32, place: T) -> Result<T, Refusal> {
    match number {
        0 => Ok(place),
        _ => Err(Refusal::from_number(number).expect("every other number is a refusal")),
    }
}

/// The value that a call left in its place, if it found one.
#[inline]
pub(crate) fn answer(call: impl FnOnce(&mut f64) -> u32) -> Result<Option<f64>, Refusal> {
    let mut place = 0.0;
    match call(&mut place) {
        100 => Ok(None),
        number => value(number, Some(place)),
    }
}

#[cfg(test)]
mod tests {
    use super::*;
    use std::collections::HashSet;

    /// Document 01's numbers, and words of what each refusal is for.
    const EXPECTED: [(Refusal, u32, &[&str]); 11] = [
        (Refusal::InsufficientPoints, 1, &["fewer than 2 points"]),
        (
            Refusal::InvalidFrequencyRange,
            2,
            &["highest frequency", "0 or below"],
        ),
        (
            Refusal::InvalidParameter,
            3,
            &["largest gain", "0 or below", "order", "above 8"],
        ),
        (Refusal::LengthsDiffer, 11, &["lists", "length"]),
        (Refusal::CubicLeftOut, 12, &["degree 3"]),
        (
            Refusal::TooFewPairs,
            13,
            &["fewer cosines and sines", "order plus 1"],
        ),
        (Refusal::NoRoom, 14, &["list", "too short"]),
        (
            Refusal::TooMany,
            15,
            &["more than 4,096", "readings", "points"],
        ),
        (Refusal::WrongOrder, 16, &["order", "0", "above 8"]),
        (Refusal::WrongIndex, 17, &["index"]),
        (Refusal::WrongByteCount, 19, &["bytes", "multiple of 24"]),
    ];

    #[test]
    fn every_refusal_has_its_number_and_text() {
        assert_eq!(EXPECTED.map(|(refusal, ..)| refusal), Refusal::ALL);
        let mut texts = HashSet::new();
        for (refusal, number, words) in EXPECTED {
            assert_eq!(refusal.number(), number);
            assert_eq!(Refusal::from_number(number), Some(refusal));
            let text = refusal.to_string();
            for word in words {
                assert!(text.contains(word), "{word} is not in {text}");
            }
            assert!(texts.insert(text), "{refusal:?} has the text of another");
        }
    }

    #[test]
    fn no_other_number_is_a_refusal() {
        for number in (0..=1000).chain([u32::MAX]) {
            let expected = EXPECTED.iter().find(|(_, n, _)| *n == number);
            let expected = expected.map(|(refusal, ..)| *refusal);
            assert_eq!(Refusal::from_number(number), expected);
        }
    }
}
