//! Points of the root locus, and `stability_region`.

use crate::responses::described;
use crate::tally::{bits, same_number, same_numbers, Comparison, Place};
use bazintroa::exported::{self, Poles};
use bazintroa::{locus_point, stability_region, Complex, Ending, LocusPoint, TransferFn};
use vectors::coefficients::Coefficients;
use vectors::ending;
use vectors::locus::{
    dropped, high_degrees, low_degrees, mixed_region, pole_of_square, random_point, Answer, Found,
    Point, Region, KINDS,
};
use vectors::numbers::{MAX_ORDER, MAX_POINTS, VALUE};
use vectors::random::{with_neighbours, Random};
use vectors::searches;

/// Polynomials and points at the edges of the root search, to be varied.
pub struct Edges {
    polynomials: Vec<Vec<f64>>,
    points: Vec<Point>,
}

impl Edges {
    pub fn new(random: &mut Random) -> Self {
        Self {
            polynomials: [
                low_degrees(random),
                high_degrees(random),
                searches::edges(random),
            ]
            .concat(),
            points: dropped(random),
        }
    }
}

pub fn compare(comparison: &mut Comparison, random: &mut Random, edges: &Edges) {
    let point = draw(random, edges);
    check(comparison, &point, &point.answer());
}

/// Compares every point of a locus with `compute_root_locus`.
pub fn compare_whole(comparison: &mut Comparison, random: &mut Random) {
    let order = 1 + random.below(MAX_ORDER);
    let kind = random.pick(&KINDS);
    let mut point = random_point(random, order, kind);
    point.n = random.pick(&[2, 3, 5, 9, 17, 33]);
    point.i = 0;
    let points = point.locus().expect("the Rust is built with these numbers");
    let points = points.expect("the Rust does not refuse it");
    for (i, expected) in (0..).zip(points) {
        point.i = i;
        let expected = match point.refusal() {
            Some(number) => Err(number),
            None => Ok(point.with_ending(expected)),
        };
        check(comparison, &point, &expected);
    }
}

pub fn compare_region(comparison: &mut Comparison, random: &mut Random) {
    let region = draw_region(random);
    let expected = region.answer();
    let parts: [f64; 16] = region.poles.concat().try_into().expect("eight poles");
    let count = region.count as usize;
    let stable = exported::stability_region(&parts, count);
    let poles = region.poles.map(|[re, im]| Complex::new(re, im));
    let safe = stability_region(&poles, count);
    let same = stable == expected && safe == expected;
    comparison.note("stability_region", u64::from(stable), same, || {
        format!(
            "  poles:{}, count {count}\n  exported: {stable}, safe: {safe}, expected: {expected}",
            bits(&parts)
        )
    });
}

fn check(comparison: &mut Comparison, point: &Point, answer: &Answer) {
    const COUNT: usize = 0x5EED_5EED;
    const KIND: u32 = 0x5EED_5EED;
    let Coefficients { order, b, a } = point.function;
    let tf = TransferFn {
        b,
        a,
        order: order as usize,
    };
    let (n, i) = (point.n as usize, point.i as usize);
    let mut gain = Place::new();
    let mut poles = Place::new();
    let mut counts = [COUNT; 3];
    let mut kinds = [KIND; 3];
    let mut ending_value = Place::new();
    let number = u64::from(exported::locus_point(
        &b,
        &a,
        tf.order,
        point.k_max,
        n,
        i,
        &mut gain.lent[0],
        Poles::from(&mut poles.lent),
        &mut counts[1],
        &mut kinds[1],
        &mut ending_value.lent[0],
    ));
    let safe = locus_point(&tf, point.k_max, n, i);
    let safe = safe.map_err(|refusal| u64::from(refusal.number()));
    let ending = answer.as_ref().ok().map(|found| found.ending);
    let expected = places(answer);
    let [before, count, after] = counts;
    let [before_kind, kind, after_kind] = kinds;
    let same = number == expected.as_ref().err().copied().unwrap_or(VALUE)
        && gain.holds(expected.as_ref().ok().map(|point| [point.gain]))
        && poles.holds(expected.as_ref().ok().map(parts))
        && [before, after] == [COUNT; 2]
        && count == expected.as_ref().map_or(COUNT, |point| point.count)
        && [before_kind, after_kind] == [KIND; 2]
        && kind == ending.map_or(KIND, |ending| ending.kind() as u32)
        && ending_value.holds(ending.map(|ending| [ending.value()]))
        && match (&safe, &expected) {
            (Ok(safe), Ok(expected)) => {
                same_number(safe.gain, expected.gain)
                    && same_numbers(&parts(safe), &parts(expected))
                    && safe.count == expected.count
                    && same_ending(safe.ending, expected.ending)
            }
            (safe, expected) => safe.as_ref().err() == expected.as_ref().err(),
        };
    comparison.note(name(answer), number, same, || {
        format!(
            "{}\n  largest gain:{}, n {n}, i {i}\n  exported: {number}, gain:{}\n    poles:{}\n    count, between two places: {counts:?}\n    ending, between two places: {kinds:?}, its value:{}\n  safe: {}\n  expected: {}",
            described("transfer function", &tf),
            bits(&[point.k_max]),
            gain.bits(),
            poles.bits(),
            ending_value.bits(),
            shown(&safe),
            shown(&expected),
        )
    });
}

/// The name by which a call is counted: points by how the search for their poles ended.
fn name(answer: &Answer) -> &'static str {
    match answer {
        Ok(found) => match found.ending {
            ending::Ending::Settled(0) => "locus_point, settled at once",
            ending::Ending::Settled(_) => "locus_point, settled",
            ending::Ending::Spent(_) => "locus_point, spent",
            ending::Ending::Broken => "locus_point, broken",
        },
        Err(_) => "locus_point, refused",
    }
}

/// An answer as the port gives it: past the count there is (0, 0).
fn places(answer: &Answer) -> Result<LocusPoint, u64> {
    let point = |found: &Found| {
        let mut poles = [Complex::new(0.0, 0.0); 8];
        for (place, &[re, im]) in poles.iter_mut().zip(&found.poles) {
            *place = Complex::new(re, im);
        }
        LocusPoint {
            gain: found.gain,
            poles,
            count: found.poles.len(),
            ending: match found.ending {
                ending::Ending::Settled(rounds) => Ending::Settled(rounds),
                ending::Ending::Spent(last_change) => Ending::Spent(last_change),
                ending::Ending::Broken => Ending::Broken,
            },
        }
    };
    answer.as_ref().map_err(|&number| number).map(point)
}

fn same_ending(a: Ending, b: Ending) -> bool {
    match (a, b) {
        (Ending::Settled(a), Ending::Settled(b)) => a == b,
        (Ending::Spent(a), Ending::Spent(b)) => same_number(a, b),
        (Ending::Broken, Ending::Broken) => true,
        _ => false,
    }
}

fn parts(point: &LocusPoint) -> [f64; 16] {
    std::array::from_fn(|k| {
        let Complex { re, im } = point.poles[k / 2];
        [re, im][k % 2]
    })
}

fn shown(answer: &Result<LocusPoint, u64>) -> String {
    match answer {
        Ok(point) => format!(
            "{VALUE}, gain:{}, poles:{}, count {}, ending {:?}",
            bits(&[point.gain]),
            bits(&parts(point)),
            point.count,
            point.ending
        ),
        Err(number) => number.to_string(),
    }
}

fn draw(random: &mut Random, edges: &Edges) -> Point {
    match random.below(20) {
        0..=7 => {
            let order = 1 + random.below(MAX_ORDER);
            let kind = random.pick(&KINDS);
            random_point(random, order, kind)
        }
        8..=11 => {
            let at = random.below(edges.polynomials.len() as u64) as usize;
            let mut polynomial = edges.polynomials[at].clone();
            for coefficient in &mut polynomial {
                vary(random, coefficient);
            }
            Point::of_polynomial(random, &polynomial)
        }
        12 | 13 => {
            let at = random.below(edges.points.len() as u64) as usize;
            let mut point = edges.points[at].clone();
            let Coefficients { b, a, .. } = &mut point.function;
            for coefficient in b.iter_mut().chain(a) {
                vary(random, coefficient);
            }
            point
        }
        14..=17 => {
            let polynomial = searches::hard(random);
            Point::of_polynomial(random, &polynomial)
        }
        _ => at_limits(random),
    }
}

/// Leaves most numbers as they are.
fn vary(random: &mut Random, number: &mut f64) {
    match random.below(24) {
        0 => *number = f64::from_bits(number.to_bits().wrapping_add(1)),
        1 => *number = f64::from_bits(number.to_bits().wrapping_sub(1)),
        2 => *number *= random.between(0.5, 2.0),
        3 => *number = -*number,
        4 if random.below(4) == 0 => *number = random.special(),
        _ => {}
    }
}

/// n, order, i and the largest gain at their limits and past them.
fn at_limits(random: &mut Random) -> Point {
    let orders = [0, 1, 2, 3, 4, 7, 8, 9, 10, 1 << 32, (1 << 32) + 1, u64::MAX];
    let order = random.pick(&orders);
    let kind = random.pick(&KINDS);
    let mut point = random_point(random, order, kind);
    point.n = match random.below(4) {
        0 => random.pick(&[0, 1, 2, MAX_POINTS - 1, MAX_POINTS, MAX_POINTS + 1]),
        1 => random.pick(&[1 << 32, (1 << 32) + 2, 1 << 63, u64::MAX]),
        _ => point.n,
    };
    point.i = match random.below(6) {
        0 => point.n,
        1 => point.n.wrapping_add(1),
        2 => point.n.saturating_sub(1),
        3 => random.pick(&[0, 1 << 32, u64::MAX]),
        _ => point.i,
    };
    point.k_max = match random.below(8) {
        0 => random.pick(&[0.0, -0.0, -f64::from_bits(1), -1.0, f64::NEG_INFINITY]),
        1 => random.special(),
        2 => random.uniform_bits(),
        3 => random.pick(&[f64::MAX, f64::INFINITY, f64::from_bits(1), f64::NAN]),
        _ => point.k_max,
    };
    point
}

fn draw_region(random: &mut Random) -> Region {
    let mut region = mixed_region(random);
    // A pole on the circle or next to it, counted or not.
    if random.below(2) == 0 {
        let square = random.pick(&with_neighbours(1.0));
        let place = random.below(8) as usize;
        region.poles[place] = pole_of_square(random, square);
    }
    match random.below(8) {
        0 => region.count = random.pick(&[8, 9, 255, 256, 1 << 32, (1 << 32) + 8, u64::MAX]),
        1 => region.count = random.below(10),
        _ => {}
    }
    region
}
