//! The square root, and the operations of complex numbers.

use crate::timing::{folded, Row, Table, TARGET};
use bazintroa::Complex;
use oxictl::core::frequency_domain as rust;
use std::hint::black_box;
use vectors::random::Random;

const VALUES: usize = 1024;

/// The port is called, and the processor's instruction stands in the loop.
pub fn roots() -> [Table<'static>; 2] {
    let random = &mut Random::new(1);
    let mut draw = |pattern: fn(&mut Random) -> u64| -> Vec<f64> {
        (0..VALUES)
            .map(|_| f64::from_bits(pattern(random)))
            .collect()
    };
    let small = draw(|random| 1.0_f64.to_bits() + random.below(2 << 52));
    let normal = draw(|random| f64::MIN_POSITIVE.to_bits() + random.below(0x7fe << 52));
    let subnormal = draw(|random| 1 + random.below((1 << 52) - 1));

    let sum = |root: f64, value: f64| root + value;
    // No sum with a root is subnormal, so this is the value alone, made to wait for the root.
    let nothing = black_box(0);
    let wait =
        move |root: f64, value: f64| f64::from_bits(value.to_bits() | (root.to_bits() & nothing));
    let table = |title, target, rows: [Row<'static>; 3]| Table {
        title,
        of: "a call",
        other: Some(("processor", target)),
        rows: rows.into(),
    };
    [
        table(
            "The square root, independent calls",
            5.0,
            [
                independent("from 1 to 4", small.clone()),
                independent("normal numbers", normal.clone()),
                independent("subnormal numbers", subnormal.clone()),
            ],
        ),
        table(
            "The square root, each call waits for the last root",
            4.0,
            [
                chain("from 1 to 4", small, sum),
                chain("normal numbers", normal, sum),
                chain("subnormal numbers", subnormal, wait),
            ],
        ),
    ]
}

/// `black_box` keeps the compiler from taking several roots with one instruction.
fn independent(case: &'static str, values: Vec<f64>) -> Row<'static> {
    fn roots(root: impl Fn(f64) -> f64, values: &[f64]) -> u64 {
        folded(values.iter().map(|&x| root(black_box(x))))
    }
    let other = values.clone();
    Row::new(
        "sqrt",
        case,
        VALUES,
        move || roots(bazintroa::sqrt, &values),
        move || roots(f64::sqrt, &other),
    )
}

/// Each argument is made of the last root and a value.
fn chain(
    case: &'static str,
    values: Vec<f64>,
    argument: impl Fn(f64, f64) -> f64 + Copy + 'static,
) -> Row<'static> {
    fn last(root: impl Fn(f64) -> f64, argument: impl Fn(f64, f64) -> f64, values: &[f64]) -> u64 {
        let last = values
            .iter()
            .fold(1.0, |x, &value| argument(root(x), value));
        last.to_bits()
    }
    let other = values.clone();
    Row::new(
        "sqrt",
        case,
        VALUES,
        move || last(bazintroa::sqrt, argument, &values),
        move || last(f64::sqrt, argument, &other),
    )
}

/// Of the parts of two numbers. Beside an answer that is a number stands 0.
type Operation = fn(&[f64; 4]) -> [f64; 2];

/// Operations by their names, on numbers of a type. Nothing drawn here has no quotient.
macro_rules! operations {
    ($type:ty) => {{
        fn numbers(&[a, b, c, d]: &[f64; 4]) -> [$type; 2] {
            [<$type>::new(a, b), <$type>::new(c, d)]
        }
        fn first(parts: &[f64; 4]) -> $type {
            numbers(parts)[0]
        }
        fn parts(z: $type) -> [f64; 2] {
            [z.re, z.im]
        }
        fn both(x: &[f64; 4], operation: impl Fn(&$type, &$type) -> $type) -> [f64; 2] {
            let [z, w] = numbers(x);
            parts(operation(&z, &w))
        }
        let operations: [(&'static str, Operation); 7] = [
            ("complex_multiply", |x| both(x, |z, w| z.multiply(w))),
            ("complex_add", |x| both(x, |z, w| z.add(w))),
            ("complex_sub", |x| both(x, |z, w| z.sub(w))),
            ("complex_divide", |x| both(x, |z, w| z.divide(w).unwrap())),
            ("complex_reciprocal", |x| {
                parts(first(x).reciprocal().unwrap())
            }),
            ("complex_magnitude", |x| [first(x).magnitude(), 0.0]),
            ("complex_magnitude_sq", |x| [first(x).magnitude_sq(), 0.0]),
        ];
        operations
    }};
}

/// Both sides are called through a pointer, so the Rust's are not inlined; the port's call the
/// archive from there.
pub fn complex() -> Table<'static> {
    fn all(operation: Operation, values: &[[f64; 4]]) -> u64 {
        folded(values.iter().flat_map(black_box(operation)))
    }
    let random = &mut Random::new(2);
    let values: Vec<[f64; 4]> = (0..VALUES)
        .map(|_| [(); 4].map(|_| random.between(-2.0, 2.0)))
        .collect();
    let values: &'static [[f64; 4]] = values.leak();
    let pairs = operations!(Complex)
        .into_iter()
        .zip(operations!(rust::Complex<f64>));
    let rows = pairs.map(|((name, port), (_, rust))| {
        Row::new(
            name,
            "called",
            VALUES,
            move || all(port, values),
            move || all(rust, values),
        )
    });
    Table {
        title: "Complex numbers",
        of: "a call",
        other: Some(("Rust", TARGET)),
        rows: rows.collect(),
    }
}
