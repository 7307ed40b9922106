//! Vectors for absolute value, square root and `Complex`.

use crate::numbers::{NONE, VALUE};
use crate::random::{beside, nans, power_of_two, specials, with_neighbours, Random, EPS, ROOT_EPS};
use crate::rows::{float, pair, Rows};
use crate::words::Words;
use num_traits::Float;
use oxictl::core::frequency_domain::Complex;
use oxictl::core::scalar::ControlScalar;
use Question::*;

/// x.re, x.im, y.re, y.im.
pub type Arguments = [f64; 4];

#[derive(Clone, Copy, Debug)]
pub enum Question {
    Abs = 1,
    Sqrt,
    New,
    FromReal,
    Multiply,
    Add,
    Sub,
    Magnitude,
    MagnitudeSq,
    Reciprocal,
    Divide,
    Epsilon,
}

impl Question {
    /// How many of the four arguments it reads.
    fn reads(self) -> usize {
        match self {
            Epsilon => 0,
            Abs | Sqrt | FromReal => 1,
            New | Magnitude | MagnitudeSq | Reciprocal => 2,
            Multiply | Add | Sub | Divide => 4,
        }
    }

    /// What the Rust answers. Beside a real answer stands 0.
    pub fn answer(self, [x_re, x_im, y_re, y_im]: Arguments) -> Option<[f64; 2]> {
        let x = Complex::new(x_re, x_im);
        let y = Complex::new(y_re, y_im);
        let real = |value: f64| Some([value, 0.0]);
        let complex = |value: Complex<f64>| Some([value.re, value.im]);
        match self {
            Abs => real(Float::abs(x_re)),
            Sqrt => real(Float::sqrt(x_re)),
            New => complex(x),
            FromReal => complex(Complex::from_real(x_re)),
            Multiply => complex(x.multiply(&y)),
            Add => complex(x.add(&y)),
            Sub => complex(x.sub(&y)),
            Magnitude => real(x.magnitude()),
            MagnitudeSq => real(x.magnitude_sq()),
            Reciprocal => x.reciprocal().and_then(complex),
            Divide => x.divide(&y).and_then(complex),
            Epsilon => real(<f64 as ControlScalar>::EPSILON),
        }
    }
}

/// Document 01's worked cases.
const WORKED: [(Question, Arguments); 6] = [
    (Multiply, [1.0, 2.0, 3.0, 4.0]),
    (Divide, [-5.0, 10.0, 3.0, 4.0]),
    (Divide, [-5.0, 10.0, 0.0, 0.0]),
    (Sqrt, [2.25, 0.0, 0.0, 0.0]),
    (Sqrt, [5e-324, 0.0, 0.0, 0.0]), // 2^-1074
    (Sqrt, [-0.0, 0.0, 0.0, 0.0]),
];

pub fn vectors() -> Words {
    let random = &mut Random::new(1);
    let mut words = Words::default();

    for (question, arguments) in WORKED {
        ask(&mut words, question, arguments);
    }
    let reals = reals(random);
    let radicands = radicands(random);
    for &x in &reals {
        ask(&mut words, Abs, [x, 0.0, 0.0, 0.0]);
    }
    for &x in reals.iter().chain(&radicands) {
        ask(&mut words, Sqrt, [x, 0.0, 0.0, 0.0]);
    }

    let operands = operands(random);
    for question in [
        New,
        FromReal,
        Multiply,
        Add,
        Sub,
        Magnitude,
        MagnitudeSq,
        Reciprocal,
        Divide,
    ] {
        for &arguments in &operands {
            ask(&mut words, question, arguments);
        }
    }
    for [re, im] in divisors(random) {
        let moderate = [random.between(-2.0, 2.0), random.between(-2.0, 2.0)];
        let special = [random.special(), random.special()];
        ask(&mut words, MagnitudeSq, [re, im, 0.0, 0.0]);
        ask(&mut words, Reciprocal, [re, im, 0.0, 0.0]);
        ask(&mut words, Divide, [moderate[0], moderate[1], re, im]);
        ask(&mut words, Divide, [special[0], special[1], re, im]);
    }

    ask(&mut words, Epsilon, [0.0; 4]);

    words.wrong_on_purpose(|_| ());
    for no_question in [0, 13] {
        words.word(no_question);
        words.arguments(&[0.0; 4]);
        words.answer(VALUE, &[0.0; 2]);
        words.wrong_as_it_stands();
    }
    words
}

/// Rows for the prover.
pub fn rows(rows: &mut Rows, random: &mut Random) {
    rows.table(
        "square_roots",
        "square roots of subnormals, of numbers beside an exact square, of numbers beside the square of a point midway between two floats",
    );
    let mut radicands = vec![
        f64::from_bits(3),
        random.subnormal().abs(),
        with_neighbours(f64::MIN_POSITIVE)[0],
        f64::MIN_POSITIVE,
        f64::MAX,
        f64::INFINITY,
        -f64::from_bits(1),
        random.nan(),
    ];
    radicands.extend(with_neighbours(1.0));
    radicands.extend(with_neighbours(exact_square(random)));
    for _ in 0..3 {
        radicands.extend(beside_midway(random));
    }
    for x in radicands {
        row(rows, Sqrt, [x, 0.0, 0.0, 0.0]);
    }
    rows.table(
        "complex_numbers",
        "complex numbers that are moderate, huge and tiny; zeros of either sign, infinities; divisors with squared magnitude eps or next to it",
    );
    for question in [Multiply, Divide, Reciprocal, Magnitude] {
        row(rows, question, [(); 4].map(|_| random.between(-10.0, 10.0)));
        row(
            rows,
            question,
            [(); 4].map(|_| random.with_exponent(-520, 520)),
        );
        row(rows, question, [-0.0, 0.0, -1.5, -0.0]);
        row(rows, question, [f64::INFINITY, 1.0, -2.0, f64::MAX]);
    }
    for square in with_neighbours(EPS) {
        let [re, im] = loop {
            let re = random.between(-ROOT_EPS, ROOT_EPS);
            let im = beside(re, square);
            if re * re + im * im == square {
                break [re, im];
            }
        };
        row(rows, Reciprocal, [re, im, 0.0, 0.0]);
        row(rows, Divide, [random.between(-2.0, 2.0), -0.0, re, im]);
    }
}

fn row(rows: &mut Rows, question: Question, arguments: Arguments) {
    let [x_re, x_im, y_re, y_im] = arguments;
    let [x, y] = [pair([x_re, x_im]), pair([y_re, y_im])];
    let name = format!("{question:?}").to_lowercase();
    let case = match question.reads() {
        1 => format!("{name} {}", float(x_re)),
        2 => format!("{name} {x}"),
        _ => format!("{name} {x} {y}"),
    };
    let count = match question {
        Sqrt | Magnitude => 1,
        _ => 2,
    };
    match question.answer(arguments) {
        Some(values) => rows.row(&case, VALUE, &values[..count]),
        None => rows.row(&case, NONE, &[]),
    }
}

/// Writes a record: the question, its arguments and what the Rust answers.
fn ask(words: &mut Words, question: Question, mut arguments: Arguments) {
    arguments[question.reads()..].fill(0.0);
    words.word(question as u64);
    words.arguments(&arguments);
    let answer = question.answer(arguments);
    let number = if answer.is_some() { VALUE } else { NONE };
    words.answer(number, &answer.unwrap_or([0.0; 2]));
    words.count(format!("{question:?} {number}"));
}

/// Reals of every class.
fn reals(random: &mut Random) -> Vec<f64> {
    let mut list = [&specials()[..], &nans()].concat();
    for k in 0..52 {
        let power = 1 << k;
        list.extend([power, 2 * power - 1].map(f64::from_bits));
    }
    for edge in [EPS, ROOT_EPS, 0.5, 1.0, 2.0, 4.0, f64::MIN_POSITIVE] {
        list.extend(with_neighbours(edge));
        list.extend(with_neighbours(edge).map(|x| -x));
    }
    list.extend(&with_neighbours(f64::MAX)[..2]);
    list.extend((0..100).map(|_| random.subnormal()));
    list.extend((0..300).map(|_| random.between(-1000.0, 1000.0)));
    list.extend((0..500).map(|_| random.uniform_bits()));
    list
}

/// Positive numbers whose roots are worth asking for.
fn radicands(random: &mut Random) -> Vec<f64> {
    let mut list = Vec::new();
    // Every exponent: the first of its numbers, the last, or one between.
    for exponent in 1..2047 {
        let significand = match exponent % 8 {
            0 | 3 => 0,
            4 | 7 => (1 << 52) - 1,
            _ => random.below(1 << 52),
        };
        list.push(f64::from_bits((exponent << 52) | significand));
    }
    list.extend((0..200).map(|_| random.subnormal().abs()));
    // With their neighbours.
    for _ in 0..150 {
        list.extend(with_neighbours(exact_square(random)));
    }
    for _ in 0..150 {
        list.extend(beside_midway(random));
    }
    list
}

/// The exact square of a number of 26 bits.
fn exact_square(random: &mut Random) -> f64 {
    let root = random.below(1 << 26) | 1;
    let scale = power_of_two(random.below(950) as i32 * 2 - 1000);
    (root * root) as f64 * scale
}

/// The numbers on both sides of the square of a point midway between two floats.
fn beside_midway(random: &mut Random) -> [f64; 2] {
    let twice_midway = u128::from(random.below(1 << 52) | (1 << 52)) * 2 + 1;
    let square = twice_midway * twice_midway;
    let shift = 128 - square.leading_zeros() - 53;
    let scale = power_of_two(shift as i32 - 2 + random.below(900) as i32 * 2 - 1000);
    let below = (square >> shift) as f64;
    [below * scale, (below + 1.0) * scale]
}

/// Four parts: of every class, with results that round, overflow and underflow.
fn operands(random: &mut Random) -> Vec<Arguments> {
    let mut list = Vec::new();
    for p in specials() {
        for q in specials() {
            list.push([p, q, random.special(), random.special()]);
            list.push([p, random.special(), q, random.special()]);
        }
    }
    for _ in 0..150 {
        list.push([(); 4].map(|_| random.between(-10.0, 10.0)));
        list.push([(); 4].map(|_| random.with_exponent(-520, 520)));
        list.push([(); 4].map(|_| random.uniform_bits()));
    }
    list
}

/// Divisors whose squared magnitude is `EPS` or next to it, overflows, underflows or is a NaN.
fn divisors(random: &mut Random) -> Vec<[f64; 2]> {
    let huge = power_of_two(512);
    let tiny = power_of_two(-538);
    let nan = random.nan();
    let mut list = vec![
        [ROOT_EPS, 0.0],
        [-ROOT_EPS, -0.0],
        [0.0, ROOT_EPS],
        [-0.0, -ROOT_EPS],
        [ROOT_EPS, tiny],
        [ROOT_EPS, EPS], // the next above EPS
        [EPS, ROOT_EPS],
        [huge, 0.0],
        [0.0, -huge],
        [huge / 2.0, huge / 2.0],
        [-huge, huge],
        [f64::MAX, f64::MAX],
        [tiny, 0.0],
        [-tiny, tiny],
        [0.0, 0.0],
        [-0.0, -0.0],
        [f64::INFINITY, 1.0],
        [0.0, f64::NEG_INFINITY],
        [f64::INFINITY, nan],
        [nan, 0.0],
        [0.0, nan],
        [ROOT_EPS / 2.0, nan],
    ];
    for root in with_neighbours(ROOT_EPS) {
        list.extend([[root, 0.0], [0.0, -root]]);
    }
    for square in with_neighbours(EPS) {
        for _ in 0..30 {
            let re = random.between(-ROOT_EPS, ROOT_EPS);
            let im = beside(re, square);
            list.extend([[re, im], [-im, re]]);
        }
    }
    list
}
