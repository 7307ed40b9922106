//! `sqrt`, `abs` and the operations of complex numbers.

use crate::tally::{bits, same_number, same_numbers, Comparison, Place};
use bazintroa::{exported, Complex};
use vectors::complex::{Arguments, Question};
use vectors::numbers::{NONE, VALUE};
use vectors::random::{beside, with_neighbours, Random, EPS, ROOT_EPS};

pub fn compare(comparison: &mut Comparison, random: &mut Random) {
    let arguments = draw(random);
    for (name, question, port) in NUMBERS {
        let expected = question.answer(arguments).map(|[value, _]| value);
        let value = port(arguments);
        let same = expected.is_some_and(|expected| same_number(value, expected));
        comparison.note(name, VALUE, same, || {
            format!(
                "  arguments:{}\n  port:{}\n  expected: {:?}",
                bits(&arguments),
                bits(&[value]),
                expected.map(|value| bits(&[value]))
            )
        });
    }
    for (name, question, port, safe) in PAIRS {
        let expected = question.answer(arguments);
        check(comparison, name, arguments, port, safe, expected);
    }
    let quotient = Question::Divide.answer(arguments).unwrap_or([0.0; 2]);
    check(
        comparison,
        "complex_divide_or_zero",
        arguments,
        |x, y, out| {
            exported::complex_divide_or_zero(x, y, out);
            0
        },
        |x, y| Some(x.divide_or_zero(y)),
        Some(quotient),
    );
}

/// An answer that is a number: its name, what the Rust is asked, and the port.
type OfNumber = (&'static str, Question, fn(Arguments) -> f64);

const NUMBERS: [OfNumber; 4] = [
    ("sqrt", Question::Sqrt, |[x, ..]| bazintroa::sqrt(x)),
    ("abs", Question::Abs, |[x, ..]| bazintroa::abs(x)),
    ("complex_magnitude", Question::Magnitude, |[re, im, ..]| {
        Complex::new(re, im).magnitude()
    }),
    (
        "complex_magnitude_sq",
        Question::MagnitudeSq,
        |[re, im, ..]| Complex::new(re, im).magnitude_sq(),
    ),
];

/// An exported function that writes a complex number.
type Exported = fn(&[f64; 2], &[f64; 2], &mut [f64; 2]) -> u32;
/// The safe one over it.
type Safe = fn(&Complex, &Complex) -> Option<Complex>;

const PAIRS: [(&str, Question, Exported, Safe); 5] = [
    (
        "complex_multiply",
        Question::Multiply,
        |x, y, out| {
            exported::complex_multiply(x, y, out);
            0
        },
        |x, y| Some(x.multiply(y)),
    ),
    (
        "complex_add",
        Question::Add,
        |x, y, out| {
            exported::complex_add(x, y, out);
            0
        },
        |x, y| Some(x.add(y)),
    ),
    (
        "complex_sub",
        Question::Sub,
        |x, y, out| {
            exported::complex_sub(x, y, out);
            0
        },
        |x, y| Some(x.sub(y)),
    ),
    (
        "complex_reciprocal",
        Question::Reciprocal,
        |x, _, out| exported::complex_reciprocal(x, out),
        |x, _| x.reciprocal(),
    ),
    (
        "complex_divide",
        Question::Divide,
        exported::complex_divide,
        Complex::divide,
    ),
];

fn check(
    comparison: &mut Comparison,
    name: &'static str,
    arguments: Arguments,
    port: Exported,
    safe: Safe,
    expected: Option<[f64; 2]>,
) {
    let [x_re, x_im, y_re, y_im] = arguments;
    let mut place = Place::new();
    let number = u64::from(port(&[x_re, x_im], &[y_re, y_im], &mut place.lent));
    let safe = safe(&Complex::new(x_re, x_im), &Complex::new(y_re, y_im));
    let safe = safe.map(|value| [value.re, value.im]);
    let same = number == expected.map_or(NONE, |_| VALUE)
        && place.holds(expected)
        && match (safe, expected) {
            (Some(safe), Some(expected)) => same_numbers(&safe, &expected),
            (safe, expected) => safe.is_none() && expected.is_none(),
        };
    comparison.note(name, number, same, || {
        format!(
            "  arguments:{}\n  exported: {number}, place:{}\n  safe: {:?}\n  expected: {:?}",
            bits(&arguments),
            place.bits(),
            safe.map(|value| bits(&value)),
            expected.map(|value| bits(&value))
        )
    });
}

fn draw(random: &mut Random) -> Arguments {
    match random.below(8) {
        0 | 1 => [(); 4].map(|_| random.uniform_bits()),
        2 => [(); 4].map(|_| random.between(-10.0, 10.0)),
        // Products that overflow and underflow.
        3 => [(); 4].map(|_| random.with_exponent(-540, 520)),
        4 => [(); 4].map(|_| random.special()),
        5 => [(); 4].map(|_| match random.below(4) {
            0 => random.special(),
            1 => random.subnormal(),
            2 => random.with_exponent(-4, 4),
            _ => random.uniform_bits(),
        }),
        // Both numbers have a squared magnitude of eps or next to it.
        _ => {
            let square = random.pick(&with_neighbours(EPS));
            let [x_re, y_re] = [(); 2].map(|_| random.between(-ROOT_EPS, ROOT_EPS));
            let [x_im, y_im] = [x_re, y_re].map(|re| beside(re, square));
            random.pick(&[[x_re, x_im, y_re, -y_im], [x_im, x_re, y_im, y_re]])
        }
    }
}
