//! Points of the locus by how the root search for their poles ends.

use crate::ending::{Ending, BROKEN, MAX_ROUNDS, SETTLED_BELOW, SPENT};
use crate::locus::{case, monic, with_roots, Found, Point};
use crate::numbers::{MAX_ORDER, VALUE};
use crate::random::{next_above, power_of_two, Random, EPS};
use crate::rows::Rows;
use std::collections::BTreeMap;
use std::ops::RangeInclusive;

/// The degrees for which there is a search.
const DEGREES: RangeInclusive<usize> = 4..=MAX_ORDER as usize;

/// Two roots meet next to (-1, 0), where the polynomial is 8, and are skipped from then on.
const MEETING: [f64; 5] = [1.0, -2.0, 4.0, 2.0, 3.0];

/// Polynomials at the edges of the endings.
pub fn edges(random: &mut Random) -> Vec<Vec<f64>> {
    let known = known(random).into_iter().map(|(polynomial, _)| polynomial);
    let mut list: Vec<_> = known.collect();
    list.push(MEETING.into());
    list.extend(far_jumps());
    list.extend(late_nans());
    list
}

/// A polynomial whose search is slow, or often spent, or mostly broken.
pub fn hard(random: &mut Random) -> Vec<f64> {
    let degree = DEGREES.start() + random.below(DEGREES.count() as u64) as usize;
    match random.below(5) {
        0 | 1 => slow(random, degree),
        2 | 3 => uneven(random, degree),
        _ => overflowing(random, degree),
    }
}

/// Points whose searches end in each way, as `assert_all` wants them.
pub fn points(random: &mut Random) -> Vec<Point> {
    let mut points = Vec::new();
    for (polynomial, ending) in known(random) {
        let point = Point::of_polynomial(random, &polynomial);
        assert_eq!(found(&point).ending, ending, "{polynomial:?}");
        points.push(point);
    }
    let point = Point::of_polynomial(random, &MEETING);
    let Found { poles, ending, .. } = found(&point);
    assert_eq!(ending, Ending::Settled(31));
    let met = |&&[re, im]: &&[f64; 2]| re == -1.0 && im.abs() < 1e-15;
    assert_eq!(poles.iter().filter(met).count(), 2);
    points.push(point);
    for (polynomials, kind) in [(far_jumps(), SPENT), (late_nans(), BROKEN)] {
        for polynomial in &polynomials {
            let point = Point::of_polynomial(random, polynomial);
            assert_eq!(found(&point).ending.kind(), kind, "{polynomial:?}");
            points.push(point);
        }
    }
    for degree in DEGREES {
        points.extend(by_rounds(random, degree));
        points.extend(by_change(random, degree));
        points.extend(by_nans(random, degree));
    }
    points
}

/// Rows for the prover, of short searches alone.
pub fn rows(rows: &mut Rows, random: &mut Random) {
    let [nan, inf] = [f64::NAN, f64::INFINITY];
    rows.table(
        "endings",
        "how the search ended: direct formulas, with NaNs and infinite poles; no poles; refusals",
    );
    for polynomial in [
        &[1.0, -0.5][..],
        &[1.0, nan],
        &[0.0, nan],
        &[1.0, -inf],
        &[2.0, -1.5, 0.25],
        &[0.5, 1.0, nan],
        &[1.0, inf, 1.0],
        &[1.0, -inf, 1.0],
        &[1.0, 1.0, inf],
        &[1.0, -0.5, 0.25, 2.0],
    ] {
        let point = Point::of_polynomial(random, polynomial);
        row(rows, &point);
    }
    let mut point = Point::of_polynomial(random, &[1.0, 2.0, nan]);
    point.i = point.n;
    row(rows, &point);
    rows.table(
        "ended_at_once",
        "how the search ended: settled in round 1; broken in it, with the first pole or with none that is not NaN",
    );
    for polynomial in [
        &[1.0, 0.0, 0.0, 0.0, -1.0][..],
        &[1.0, -1.0, 1.7e308, -1.7e308, 0.0, 0.0],
        &[1.0, 0.5, nan, -0.25, 2.0],
    ] {
        let point = Point::of_polynomial(random, polynomial);
        row(rows, &point);
    }
    rows.table(
        "ended_soon",
        "how the search ended: settled in rounds 2 and 5; broken in round 2",
    );
    for polynomial in [
        [1.0, 0.0, 0.0, 0.0, -1.0 - power_of_two(-20)],
        [1.0, 0.0, 0.0, 0.0, -2.0],
        [1.0, -3.0, -1.0, -3.0, power_of_two(164)],
    ] {
        let point = Point::of_polynomial(random, &polynomial);
        row(rows, &point);
    }
}

fn row(rows: &mut Rows, point: &Point) {
    let case = case(rows, "locus_ending", point);
    match point.answer() {
        Ok(Found { ending, .. }) => rows.row(&case, VALUE, &[ending.kind() as f64, ending.value()]),
        Err(number) => rows.row(&case, number, &[]),
    }
}

fn found(point: &Point) -> Found {
    let answer = point.answer();
    answer.expect("the point is not refused")
}

/// Stops the program where the endings of all points, each with its count of poles, are too few of
/// some kind.
pub fn assert_all(endings: &[(usize, Ending)]) {
    let count = |wanted: &dyn Fn(usize, Ending) -> bool| {
        let counted = endings
            .iter()
            .filter(|&&(poles, ending)| wanted(poles, ending));
        counted.count()
    };
    let is_broken = |ending| ending == Ending::Broken;
    let is_spent = |ending| matches!(ending, Ending::Spent(_));
    assert!(count(&|_, ending| is_spent(ending)) >= 300);
    assert!(count(&|_, ending| is_broken(ending)) >= 300);
    for degree in DEGREES {
        let of_degree = |wanted: &dyn Fn(Ending) -> bool| {
            count(&|poles, ending| poles == degree && wanted(ending))
        };
        assert!(of_degree(&is_spent) >= 50);
        assert!(of_degree(&is_broken) >= 100);
        for change in [SETTLED_BELOW, next_above(SETTLED_BELOW)] {
            assert!(of_degree(&|ending| ending == Ending::Spent(change)) > 0);
        }
        for (low, high) in [(1e-12, 1e-9), (1e-9, 1e-3), (1e-3, 1e3), (1e3, f64::MAX)] {
            let within = |ending| matches!(ending, Ending::Spent(x) if low <= x && x < high);
            assert!(of_degree(&within) > 0);
        }
        for rounds in (1..=10).chain(190..=MAX_ROUNDS) {
            assert!(of_degree(&|ending| ending == Ending::Settled(rounds)) > 0);
        }
    }
    for rounds in 0..=MAX_ROUNDS {
        assert!(count(&|_, ending| ending == Ending::Settled(rounds)) > 0);
    }
    for poles in [1, 2] {
        assert!(count(&|count, ending| count == poles && is_broken(ending)) >= 20);
    }
    assert!(count(&|_, ending| matches!(ending, Ending::Spent(x) if x > 1e15)) > 0);
}

/// Draws that are tried are so many at most.
const TRIES: usize = 20_000_000;

/// Draws polynomials until there are points of each class, as many as are wanted.
fn collect<C: Ord>(
    random: &mut Random,
    degree: usize,
    mut wanted: BTreeMap<C, usize>,
    draw: fn(&mut Random, usize) -> Vec<f64>,
    class: impl Fn(&Found) -> Option<C>,
) -> Vec<Point> {
    let mut points = Vec::new();
    for _ in 0..TRIES {
        if wanted.is_empty() {
            return points;
        }
        let mut polynomial = draw(random, degree);
        // The roots stay, up to overflow.
        let factor = random.pick(&[1.0, 1.0, 1.0, -1.0, 2.0, 0.5]);
        for coefficient in &mut polynomial {
            *coefficient *= factor;
        }
        if degree < MAX_ORDER as usize && random.below(4) == 0 {
            polynomial.insert(0, 0.0);
        }
        let point = Point::of_polynomial(random, &polynomial);
        let Some(class) = class(&found(&point)) else {
            continue;
        };
        if let Some(missing) = wanted.get_mut(&class) {
            *missing -= 1;
            if *missing == 0 {
                wanted.remove(&class);
            }
            points.push(point);
        }
    }
    panic!("too few searches of degree {degree} end as is wanted");
}

/// Settled after few rounds, after almost all, and after two in five of the others.
fn by_rounds(random: &mut Random, degree: usize) -> Vec<Point> {
    let rounds = (1..=MAX_ROUNDS)
        .filter(|&rounds| rounds <= 10 || rounds >= 190 || (rounds + degree) % 5 < 2);
    let wanted = rounds.map(|rounds| (rounds, 1)).collect();
    let draw = |random: &mut Random, degree| match random.below(4) {
        0 => soon(random, degree),
        _ => slow(random, degree),
    };
    collect(random, degree, wanted, draw, |found| match found.ending {
        Ending::Settled(rounds) => Some(rounds),
        _ => None,
    })
}

/// Spent, with last changes of every size but huge ones, which are rare.
fn by_change(random: &mut Random, degree: usize) -> Vec<Point> {
    let wanted = [(0, 13), (1, 13), (2, 10)].into();
    let draw = |random: &mut Random, degree| match random.below(8) {
        0 => slow(random, degree),
        _ => uneven(random, degree),
    };
    collect(random, degree, wanted, draw, |found| match found.ending {
        Ending::Spent(change) => Some([1e-9, 1e-3, 1e3].iter().filter(|&&x| x <= change).count()),
        _ => None,
    })
}

/// Broken, the first part that is a NaN being one or the other or both of the first pole, or of the
/// second; from there on all are.
fn by_nans(random: &mut Random, degree: usize) -> Vec<Point> {
    let parts = [[true, true], [true, false], [false, true]];
    let places = [0, 1]
        .iter()
        .flat_map(|&place| parts.map(|nans| (place, nans)));
    let wanted = places.map(|class| (class, 3)).collect();
    collect(random, degree, wanted, overflowing, |found| {
        let mut poles = found.poles.iter().map(|pole| pole.map(f64::is_nan));
        let place = poles.position(|nans| nans != [false; 2])?;
        assert!(poles.all(|nans| nans == [true; 2]));
        Some((place, found.poles[place].map(f64::is_nan)))
    })
}

/// Polynomials, and how each must end: from the leading coefficient on.
fn known(random: &mut Random) -> Vec<(Vec<f64>, Ending)> {
    let mut list = direct(random);
    list.extend(of_one_round(random));
    list.extend(next_to_the_limit());
    list.extend([
        // In the last round, and in the one before.
        (
            vec![1.0, 1.0, -1.0, -3.0, 2.0 + power_of_two(-29)],
            Ending::Settled(200),
        ),
        (vec![1.0, 3.0, -3.0, -1.0, 0.0], Ending::Settled(199)),
        // In the end every root is skipped.
        (with_roots(&[1.0; 8]), Ending::Settled(21)),
    ]);
    list
}

/// Degrees 0, 1 and 2.
fn direct(random: &mut Random) -> Vec<(Vec<f64>, Ending)> {
    let [inf, max] = [f64::INFINITY, f64::MAX];
    let mut list = Vec::new();
    let mut add = |ending, polynomials: &[&[f64]]| {
        list.extend(polynomials.iter().map(|p| (p.to_vec(), ending)));
    };
    // A part of a pole is a NaN: the one pole; both, in all parts or in the imaginary ones alone;
    // the first alone, the second alone.
    for _ in 0..4 {
        let nan = random.nan();
        add(
            Ending::Broken,
            &[
                &[1.0, nan],
                &[nan, 1.0],
                &[0.0, 1.0, nan],
                &[1.0, nan, 1.0],
                &[nan, 1.0, 1.0],
                &[0.5, 1.0, nan],
                &[-1.0, -2.0, nan],
                &[1.0, 0.0, nan],
                &[0.0, 0.0, 1.0, 3.0, nan],
            ],
        );
        // No poles, whatever the coefficients hold.
        add(
            Ending::Settled(0),
            &[
                &[0.0, nan],
                &[0.0, 0.0, nan],
                &[0.0, 0.0, 0.0, nan],
                &[0.0, 0.0, 0.0, 0.0, nan],
            ],
        );
    }
    add(
        Ending::Broken,
        &[
            &[inf, inf],
            &[1.0, inf, 1.0],
            &[1.0, -inf, 1.0],
            &[-2.0, inf, 0.0],
            &[-2.0, -inf, 0.0],
            &[0.5, inf, inf],
            &[inf, 1.0, inf],
        ],
    );
    // Infinite is not NaN.
    add(
        Ending::Settled(0),
        &[
            &[1.0, -inf],
            &[1.0, inf],
            &[0.5, max],
            &[EPS, -max],
            &[1.0, 1.0, -inf],
            &[1.0, 1.0, inf],
            &[-1.0, 3.0, inf],
            &[1.0, max, 1.0],
            &[1.0, -max, 1.0],
            &[0.0, 1.0, 0.0, -inf],
        ],
    );
    list
}

/// Searches that one round ends: the starting points are the roots, or it leaves NaNs.
fn of_one_round(random: &mut Random) -> Vec<(Vec<f64>, Ending)> {
    let mut list = Vec::new();
    for degree in DEGREES {
        let mut polynomial = monic(degree, || 0.0);
        polynomial[degree] = -1.0;
        list.push((polynomial, Ending::Settled(1)));
        // Its largest change is 0, since a NaN is not above it.
        for place in 0..=degree {
            let mut polynomial = monic(degree, || random.between(-2.0, 2.0));
            polynomial[place] = random.nan();
            list.push((polynomial, Ending::Broken));
        }
        // The first pole is (1, 0), the others are NaNs.
        let mut polynomial = monic(degree, || 0.0);
        polynomial[1..4].copy_from_slice(&[-1.0, 1.7e308, -1.7e308]);
        list.push((polynomial, Ending::Broken));
    }
    list
}

/// Found by a search of our own: the largest change stays 1e-12 or the next above, so that all rounds
/// are spent, or becomes the next below, which ends the search. Coefficients behind the leading 1.
fn next_to_the_limit() -> Vec<(Vec<f64>, Ending)> {
    let at = Ending::Spent(SETTLED_BELOW);
    let above = Ending::Spent(next_above(SETTLED_BELOW));
    let below = Ending::Settled;
    #[rustfmt::skip]
    let list: [(&[f64], Ending); 15] = [
        (&[-19433.0, -1.785, 0.391, 1.2590207681680057], at),
        (&[-19433.0, -1.785, 0.391, 1.259020768168006], above),
        (&[-19433.0, -1.785, 0.391, 1.2590207681680046], below(14)),
        (&[17836.0, -1.445, -0.163, 1.7491486236293396, -0.467], at),
        (&[17836.0, -1.445, -0.163, 1.7491486236293394, -0.467], above),
        (&[17836.0, -1.445, -0.163, 1.7491486236293414, -0.467], below(14)),
        (&[-28085.0, 1.452, 1.626, -1.317638612203963, -1.41, 1.041], at),
        (&[26521.0, -1.991, -0.87, -1.8844200614730346, 0.58, -1.145], above),
        (&[26521.0, -1.991, -0.87, -1.8844200614730389, 0.58, -1.145], below(14)),
        (&[25296.0, 1.677, -1.439, -1.39727484728874, -0.154, 0.706, 0.428], at),
        (&[25296.0, 1.677, -1.439, -1.3972748472887397, -0.154, 0.706, 0.428], above),
        (&[25296.0, 1.677, -1.439, -1.3972748472887437, -0.154, 0.706, 0.428], below(17)),
        (&[-27197.0, -0.584, 1.662, -0.06675128474187908, -0.95, 0.022, -0.262, 0.152], at),
        (&[-27197.0, -0.584, 1.662, -0.06675128474187807, -0.95, 0.022, -0.262, 0.152], above),
        (&[-27197.0, -0.584, 1.662, -0.06675128474188165, -0.95, 0.022, -0.262, 0.152], below(16)),
    ];
    let with_lead = |(rest, ending): (&[f64], Ending)| ([&[1.0], rest].concat(), ending);
    list.map(with_lead).into()
}

/// Found by a search of our own: polynomials whose poles still jump far in the last round.
fn far_jumps() -> Vec<Vec<f64>> {
    let p = power_of_two;
    vec![
        vec![1.0, -1.0, p(146), p(145), 0.0],
        vec![1.0, 0.0, p(225), -2.0, -p(225), -p(113)],
        vec![1.0, 2.0, -p(19), p(76), -p(77), p(19), 0.0],
        vec![1.0, 1.0, -p(69), -1.0, 0.0, 2.0, -p(69), 0.0],
        vec![1.0, -p(58), p(114), -p(114), p(58), -p(57), 0.0, p(57), 0.0],
    ]
}

/// Found by a search of our own: polynomials whose first NaN comes late, in the rounds 13 to 42, or
/// as a part of the third pole, with two poles before it that stay.
fn late_nans() -> Vec<Vec<f64>> {
    let p = power_of_two;
    vec![
        vec![1.0, 0.0, 0.0, 0.0, 0.0, -3.1513814121069995e23, 0.0],
        vec![1.0, 0.0, p(175), -p(176), p(175), 0.0, -p(95)],
        vec![1.0, -p(45), p(176), -p(177), p(176), p(88), -p(44)],
        vec![
            1.0,
            -1.0,
            p(176),
            -p(177),
            p(176),
            3.094850098213447e26,
            -0.0,
        ],
        vec![
            1.0,
            -275.56176396574693,
            p(176),
            -p(177),
            p(176),
            -9.196439388592901e24,
            2257401.970407399,
        ],
        vec![1.0, -p(86), p(176), -p(177), -p(176), p(177), p(86)],
        vec![
            1.0,
            0.0,
            p(127),
            -p(127),
            -p(127),
            1.0,
            p(127),
            -5.0 * p(58),
            0.0,
        ],
        vec![1.0, -p(38), -3.0 * p(114), 3.0 * p(114), 0.0, 0.0],
        vec![1.0, 0.0, -2.0, p(96), 0.0, -p(95), 0.0],
        vec![1.0, -1.0, p(70), -p(71), 0.0, p(70), 0.0, 0.0, 0.0],
        vec![1.0, -1.0, p(71), -p(72), p(71), -1.0, p(71), -p(71), 0.0],
    ]
}

/// A root more than once, beside others, with a coefficient moved a little: the search takes long.
fn slow(random: &mut Random, degree: usize) -> Vec<f64> {
    let times = 2 + random.below(degree as u64 - 1) as usize;
    if random.below(2) == 0 {
        let mut quarters =
            |limit: u64| random.below(2 * limit + 1) as f64 / 4.0 - limit as f64 / 4.0;
        let mut roots = vec![quarters(6); times];
        roots.resize_with(degree, || quarters(8));
        with_roots(&roots)
    } else {
        let mut roots = vec![random.between(-1.5, 1.5); times];
        roots.resize_with(degree, || random.between(-1.5, 1.5));
        let mut polynomial = with_roots(&roots);
        let place = 1 + random.below(degree as u64) as usize;
        polynomial[place] += power_of_two(-(random.below(50) as i32));
        polynomial
    }
}

/// All but the polynomial whose roots are the starting points: the search ends soon.
fn soon(random: &mut Random, degree: usize) -> Vec<f64> {
    let size = power_of_two(-(random.below(50) as i32));
    let mut polynomial = monic(degree, || random.between(-size, size));
    polynomial[degree] -= 1.0;
    polynomial
}

/// Coefficients that differ much in size, or small whole numbers: all rounds are often spent.
fn uneven(random: &mut Random, degree: usize) -> Vec<f64> {
    match random.below(4) {
        // One root is huge.
        0 => {
            let mut polynomial = monic(degree, || random.between(-2.0, 2.0));
            polynomial[1] = random.with_exponent(5, 60);
            polynomial
        }
        1 => monic(degree, || random.with_exponent(0, 30)),
        2 => monic(degree, || random.below(7) as f64 - 3.0),
        _ => {
            let size = random.below(120) as i32;
            let powers = [0, size, 2 * size, 3 * size / 2, size / 2].map(power_of_two);
            let factors = [0.0, 1.0, -1.0, 2.0, -2.0];
            monic(degree, || random.pick(&factors) * random.pick(&powers))
        }
    }
}

/// Coefficients so large that values overflow.
fn overflowing(random: &mut Random, degree: usize) -> Vec<f64> {
    match random.below(4) {
        0 => {
            let size = 1 + random.below(1020) as i32;
            monic(degree, || random.with_exponent(-size, size))
        }
        1 => {
            let list = [0.0, 0.0, 1.0, -1.0, 1e160, -1e160, 1e308, -1e308];
            monic(degree, || random.pick(&list))
        }
        2 => {
            let mut polynomial = monic(degree, || random.below(7) as f64 - 3.0);
            let place = 1 + random.below(degree as u64) as usize;
            polynomial[place] = random.with_exponent(0, 1023);
            polynomial
        }
        _ => {
            let size = random.with_exponent(0, 300).abs();
            let list = [0.0, 1.0, -1.0, size, -size, size * size, -size * size];
            monic(degree, || random.pick(&list))
        }
    }
}
