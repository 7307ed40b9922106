//! Numbers known when the program runs, where the Rust wants constants.

/// Gives `$answer` for a number that is one of the values, which it sees as the constant `$n`;
/// `$other` for any other number.
macro_rules! at_constant {
    ($number:expr, $n:ident in $($value:literal)* => $answer:expr, else $other:expr) => {
        match $number {
            $($value => {
                const $n: usize = $value;
                $answer
            })*
            _ => $other,
        }
    };
}

pub(crate) use at_constant;
