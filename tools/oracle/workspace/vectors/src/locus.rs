//! Vectors for the locus point and `stability_region`.

use crate::coefficients::{mixed, moderate, special, stable, uniform_bits, Coefficients, Kind};
use crate::constant::at_constant;
use crate::ending::Ending;
use crate::numbers::{
    assert_refused_alike, own_refusal, CUBIC, INSUFFICIENT_POINTS, INVALID_PARAMETER, MAX_ORDER,
    MAX_POINTS, NO_SUCH_POINT, ORDER, TOO_MANY, VALUE,
};
use crate::random::{beside, power_of_two, specials, with_neighbours, Random, EPS};
use crate::rows::{float, pair, Rows};
use crate::searches;
use crate::words::{expected_bits, Words};
use heapless::Vec as HVec;
use oxictl::core::frequency_domain::{compute_root_locus, stability_region, Complex};
use oxictl_inner::core::frequency_domain::{root_locus, root_locus_told};

/// The words that a case of each kind starts with.
const POINT: u64 = 1;
const REGION: u64 = 2;

/// A gain and its poles.
pub type GainAndPoles = (f64, Vec<[f64; 2]>);

/// A point of the locus.
pub struct Found {
    pub gain: f64,
    pub poles: Vec<[f64; 2]>,
    pub ending: Ending,
}

/// A point, or the number of a refusal.
pub type Answer = Result<Found, u64>;

/// What is asked of the locus: its point `i` of `n`.
#[derive(Clone)]
pub struct Point {
    pub k_max: f64,
    pub function: Coefficients,
    pub n: u64,
    pub i: u64,
}

impl Point {
    /// A point at gain 1, where the loop has this polynomial, from the leading coefficient on. The
    /// leading one is 1 + b[0], and so it may be rounded.
    pub fn of_polynomial(random: &mut Random, polynomial: &[f64]) -> Self {
        // To add -0 changes nothing.
        let mut pairs: Vec<_> = polynomial[1..].iter().map(|&c| [-0.0, c]).collect();
        let lead = polynomial[0];
        pairs[0][0] = if lead.is_nan() { lead } else { lead - 1.0 };
        let (k_max, n, i) = random.pick(&[
            (1.0, 2, 1),
            (2.0, 3, 1),
            (1.0, 33, 32),
            (4095.0, 4096, 1),
            (1.0, 4096, 4095),
        ]);
        Self {
            k_max,
            function: Coefficients::new(random, &pairs),
            n,
            i,
        }
    }

    /// As `compute_root_locus` has it.
    fn gain(&self) -> f64 {
        self.k_max * self.i as f64 / (self.n - 1) as f64
    }

    /// How many coefficients are left of the loop's polynomial without the leading ones that do
    /// not count.
    fn coefficients_left(&self) -> usize {
        let gain = self.gain();
        let order = self.function.order as usize;
        let Coefficients { b, a, .. } = &self.function;
        let mut polynomial = vec![1.0 + gain * b[0]];
        polynomial.extend((1..order).map(|i| a[i - 1] + gain * b[i]));
        polynomial.push(a[order - 1]);
        polynomial.iter().skip_while(|c| c.abs() < EPS).count()
    }

    /// Document 01's conditions, in its order.
    pub fn refusal(&self) -> Option<u64> {
        if self.n < 2 {
            Some(INSUFFICIENT_POINTS)
        } else if self.k_max <= 0.0 || self.function.order > MAX_ORDER {
            Some(INVALID_PARAMETER)
        } else if self.function.order == 0 {
            Some(ORDER)
        } else if self.n > MAX_POINTS {
            Some(TOO_MANY)
        } else if self.i >= self.n {
            Some(NO_SUCH_POINT)
        } else if self.coefficients_left() == 4 {
            Some(CUBIC)
        } else {
            None
        }
    }

    /// The point by `compute_closed_loop_poles`, or the refusal by document 01.
    pub fn answer(&self) -> Answer {
        match self.refusal() {
            Some(number) => Err(number),
            None => {
                let poles = at_constant!(self.function.order, N in 1 2 3 4 5 6 7 8
                    => self.poles::<N>(), else unreachable!("refused"));
                Ok(self.with_ending((self.gain(), poles)))
            }
        }
    }

    /// The point that the Rust found, with its ending by the search that tells its rounds. The
    /// program stops if that one finds others than these.
    pub fn with_ending(&self, (gain, poles): GainAndPoles) -> Found {
        let (told, rounds) = at_constant!(self.function.order, N in 1 2 3 4 5 6 7 8
            => self.told_poles::<N>(), else unreachable!("refused"));
        assert_eq!(expected_bits(self.gain()), expected_bits(gain));
        assert_eq!(bits_of(&told), bits_of(&poles));
        let ending = Ending::new(&poles, rounds);
        Found {
            gain,
            poles,
            ending,
        }
    }

    /// The same. The program stops if `compute_root_locus` says something else, where it is built
    /// with the order and the number of points.
    pub fn checked_answer(&self) -> Answer {
        let answer = self.answer();
        if let Some(locus) = self.locus() {
            let refusal = self.refusal();
            assert_refused_alike(&locus, refusal);
            if refusal.is_none() {
                let point = locus.map(|points| self.with_ending(points[self.i as usize].clone()));
                assert_eq!(written(&point), written(&answer));
            }
        }
        answer
    }

    fn poles<const N: usize>(&self) -> Vec<[f64; 2]> {
        let tf = self.function.transfer_fn::<N>();
        let poles = root_locus::call_compute_closed_loop_poles(&tf, self.gain());
        assert_eq!(poles.len(), self.coefficients_left().saturating_sub(1));
        poles.iter().map(|pole| [pole.re, pole.im]).collect()
    }

    /// The poles once more, with the rounds of the search for them.
    fn told_poles<const N: usize>(&self) -> (Vec<[f64; 2]>, Option<root_locus_told::Rounds>) {
        let tf = self.function.transfer_fn::<N>();
        let (poles, rounds) = root_locus_told::call_compute_closed_loop_poles(&tf, self.gain());
        let poles = poles.iter().map(|pole| [pole.re, pole.im]).collect();
        (poles, rounds)
    }

    /// The locus that the Rust computes as a whole, for some numbers of points.
    pub fn locus(&self) -> Option<Result<Vec<GainAndPoles>, u64>> {
        at_constant!(self.function.order, N in 1 2 3 4 5 6 7 8 9 =>
            at_constant!(self.n, POINTS in 0 1 2 3 5 9 17 33 =>
                Some(self.locus_of::<N, POINTS>()), else None), else None)
    }

    fn locus_of<const N: usize, const POINTS: usize>(&self) -> Result<Vec<GainAndPoles>, u64> {
        let tf = self.function.transfer_fn::<N>();
        let locus = compute_root_locus::<_, N, POINTS>(&tf, self.k_max).map_err(own_refusal)?;
        let points = locus.points.iter().map(|point| {
            let poles = point.poles.iter().map(|pole| [pole.re, pole.im]);
            (point.gain, poles.collect())
        });
        Ok(points.collect())
    }
}

/// What is asked of `stability_region`; a count above 8 is read as 8.
pub struct Region {
    pub count: u64,
    pub poles: [[f64; 2]; 8],
}

impl Region {
    /// From the poles that count, with junk past them.
    fn new(random: &mut Random, counted: &[[f64; 2]]) -> Self {
        let mut poles = [(); 8].map(|_| [random.junk(), random.junk()]);
        poles[..counted.len()].copy_from_slice(counted);
        let count = counted.len() as u64;
        Self { count, poles }
    }

    pub fn answer(&self) -> bool {
        let mut poles = HVec::new();
        for &[re, im] in &self.poles[..self.count.min(8) as usize] {
            let pushed = poles.push(Complex::new(re, im));
            pushed.expect("there are at most 8");
        }
        stability_region(&poles)
    }
}

pub fn vectors() -> Words {
    let random = &mut Random::new(5);
    let mut points = worked(random);
    points.extend(random_points(random));
    points.extend(gains(random));
    points.extend(loci(random));
    points.extend(dropped(random));
    for polynomial in low_degrees(random).iter().chain(&high_degrees(random)) {
        points.push(Point::of_polynomial(random, polynomial));
    }
    points.extend(refused(random));

    let mut words = Words::default();
    let mut endings = Vec::new();
    for point in &points {
        endings.extend(write_point(&mut words, point));
    }
    for region in regions(random) {
        write_region(&mut words, &region);
    }
    let mut points = starting_points(random);
    points.extend(zeros(random));
    points.extend(searches::points(random));
    for point in &points {
        endings.extend(write_point(&mut words, point));
    }
    searches::assert_all(&endings);

    words.wrong_on_purpose(|_| ());
    for no_question in [0, 3] {
        words.word(no_question);
        words.wrong_as_it_stands();
    }
    words
}

/// Rows for the prover.
pub fn rows(rows: &mut Rows, random: &mut Random) {
    rows.table(
        "formulas",
        "points of degrees 1 and 2; leading coefficients that are dropped; a cubic; refusals",
    );
    for order in [1, 2, 2, 2] {
        row(rows, &inner_point(random, order));
    }
    let just_below = with_neighbours(EPS)[0];
    for polynomial in [
        vec![EPS / 2.0, -just_below, EPS, 1.5, -0.75],
        vec![0.0, just_below],
        vec![1.0, -0.5, 0.25, 2.0],
    ] {
        row(rows, &Point::of_polynomial(random, &polynomial));
    }
    for (k_max, order, n, i) in [
        (1.0, 0, 1, 0),
        (-0.0, 9, 2, 2),
        (1.0, 9, 4097, 0),
        (1.0, 0, 4097, 5000),
        (1.0, 1, 4097, 5000),
        (1.0, 3, 4096, 4096),
    ] {
        let function = Coefficients::random(random, order, stable);
        row(
            rows,
            &Point {
                k_max,
                function,
                n,
                i,
            },
        );
    }
    // The prover has a limit for what it computes at once.
    for (name, what, order) in [
        ("quartic", "the search, degree 4", 4),
        ("quintic", "the search, degree 5", 5),
        ("sextic", "the search, degree 6", 6),
        ("septic", "the search, degree 7", 7),
        ("octic", "the search, degree 8", 8),
    ] {
        rows.table(name, what);
        row(rows, &inner_point(random, order));
    }
    rows.table(
        "searches",
        "searches with a divisor of squared magnitude eps, and of the next below; one that ends at once, with roots that are NaN",
    );
    let [at, below] = [0, 2].map(|k| just_skipped().swap_remove(k));
    for polynomial in [at, below, vec![1.0, -1.0, 1.7e308, -1.7e308, 0.0, 0.0]] {
        row(rows, &Point::of_polynomial(random, &polynomial));
    }
    rows.table(
        "regions",
        "poles with squared magnitude 1 or next to it, with a NaN, past the count; a count above 8",
    );
    let mut regions = Vec::new();
    for square in with_neighbours(1.0) {
        let counted = [pole_inside(random), pole_of_square(random, square)];
        regions.push(Region::new(random, &counted));
    }
    let nan = random.nan();
    regions.push(Region::new(random, &[[nan, 2.0]]));
    for count in [7, 9] {
        let mut poles = [(); 8].map(|_| pole_inside(random));
        poles[7] = [0.0, -1.0];
        regions.push(Region { count, poles });
    }
    for region in &regions {
        let poles: Vec<_> = region.poles.iter().map(|&pole| pair(pole)).collect();
        let case = format!(
            "stability_region ({} ∷ []) {}",
            poles.join(" ∷ "),
            region.count
        );
        rows.row(&case, VALUE, &[f64::from(u8::from(region.answer()))]);
    }
}

/// A point between the ends of a locus.
fn inner_point(random: &mut Random, order: u64) -> Point {
    Point {
        k_max: random.between(0.5, 2.0),
        function: Coefficients::random(random, order, moderate),
        n: 5,
        i: 3,
    }
}

/// A question about a point in the words of the definitions.
pub fn case(rows: &mut Rows, question: &str, point: &Point) -> String {
    let function = format!(" {}", point.function.text());
    let function = rows.name("function", "TransferFn", &function);
    let Point { k_max, n, i, .. } = *point;
    format!("{question} {function} {} {n} {i}", float(k_max))
}

fn row(rows: &mut Rows, point: &Point) {
    let case = case(rows, "locus_point", point);
    match point.answer() {
        Ok(Found { gain, poles, .. }) => {
            rows.row(&case, VALUE, &[vec![gain], poles.concat()].concat())
        }
        Err(number) => rows.row(&case, number, &[]),
    }
}

/// Writes a case. If it is not refused it has a count of poles and an ending.
fn write_point(words: &mut Words, point: &Point) -> Option<(usize, Ending)> {
    words.word(POINT);
    words.arguments(&[point.k_max]);
    words.word(point.function.order);
    words.word(point.n);
    words.word(point.i);
    words.arguments(&point.function.b);
    words.arguments(&point.function.a);
    let answer = point.checked_answer();
    let expected = written(&answer);
    words.expected(true, expected.to_vec());
    match answer {
        Ok(Found { poles, ending, .. }) => {
            let [kind, value] = [ENDING, ENDING + 1];
            words.or_wrong(ending.other_kinds().map(|other| (kind, other)));
            words.or_wrong(ending.other_values().map(|other| (value, other.to_bits())));
            let count = poles.len();
            words.count(format!("point {VALUE}, {count} poles, {}", ending.name()));
            Some((count, ending))
        }
        Err(number) => {
            words.count(format!("point {number}"));
            None
        }
    }
}

fn write_region(words: &mut Words, region: &Region) {
    words.word(REGION);
    words.word(region.count);
    words.arguments(&region.poles.concat());
    let stable = region.answer();
    words.expected(false, vec![u64::from(stable)]);
    words.count(format!("region {}", u64::from(stable)));
}

fn bits_of(poles: &[[f64; 2]]) -> Vec<u64> {
    poles.concat().into_iter().map(expected_bits).collect()
}

/// Where the ending stands among the words of an answer.
const ENDING: usize = 19;

/// The words of an answer: its number, the gain, the count of poles, places for eight of them, the
/// ending's kind and value.
fn written(answer: &Answer) -> [u64; 21] {
    let mut words = [0; 21];
    match answer {
        Ok(found) => {
            words[0] = VALUE;
            words[1] = expected_bits(found.gain);
            words[2] = found.poles.len() as u64;
            let parts = bits_of(&found.poles);
            words[3..][..parts.len()].copy_from_slice(&parts);
            words[ENDING] = found.ending.kind();
            words[ENDING + 1] = expected_bits(found.ending.value());
        }
        Err(number) => words[0] = *number,
    }
    words
}

/// Document 01's worked cases: a gain is point 1 of 2, gain 0 is point 0.
fn worked(random: &mut Random) -> Vec<Point> {
    let cases: [(&[[f64; 2]], f64, u64); 4] = [
        (&[[0.5, -0.5]], 2.0, 1),
        (&[[0.0, -1.0], [1.0, 0.25]], 1.0, 0),
        (&[[0.0, -1.0], [1.0, 0.25]], 0.5, 1),
        (&[[-1.0, 0.5]], 1.0, 1),
    ];
    let point = |(pairs, k_max, i): (&[[f64; 2]], f64, u64)| Point {
        k_max,
        function: Coefficients::new(random, pairs),
        n: 2,
        i,
    };
    cases.map(point).into_iter().collect()
}

/// A number of points and one of them, often the first or the last.
fn place(random: &mut Random) -> (u64, u64) {
    let any = 2 + random.below(MAX_POINTS - 1);
    let n = random.pick(&[2, 3, 5, 9, 17, 33, any, any, MAX_POINTS]);
    let any = random.below(n);
    (n, random.pick(&[0, n - 1, any, any, any]))
}

/// Kinds of coefficients, above all those with which the search settles.
pub const KINDS: [Kind; 9] = [
    stable,
    stable,
    stable,
    moderate,
    moderate,
    moderate,
    mixed,
    special,
    uniform_bits,
];

/// A point of this order with coefficients of this kind.
pub fn random_point(random: &mut Random, order: u64, kind: Kind) -> Point {
    let [near_one, any] = [
        random.between(0.0, 10.0),
        random.with_exponent(-40, 40).abs(),
    ];
    let k_max = random.pick(&[near_one, near_one, any]);
    let function = Coefficients::random(random, order, kind);
    let (n, i) = place(random);
    Point {
        k_max,
        function,
        n,
        i,
    }
}

/// Every order with every kind of coefficients, above all those that need the search.
fn random_points(random: &mut Random) -> Vec<Point> {
    let mut points = Vec::new();
    for order in 1..=MAX_ORDER {
        let count = match order {
            1 => 15,
            2 => 20,
            3 => 5,
            _ => 30,
        };
        for kind in KINDS {
            for _ in 0..count {
                points.push(random_point(random, order, kind));
            }
        }
    }
    points
}

/// Largest gains of every class that passes, at the first points, in the middle and at the end.
fn gains(random: &mut Random) -> Vec<Point> {
    let list = [
        f64::from_bits(1),
        random.subnormal().abs(),
        f64::MIN_POSITIVE,
        1e-300,
        EPS,
        1e20,
        1e300,
        power_of_two(1013),
        f64::MAX,
        f64::INFINITY,
        random.nan(),
    ];
    let mut points = Vec::new();
    for k_max in list {
        for (n, i) in [
            (2, 0),
            (2, 1),
            (3, 1),
            (3, 2),
            (4096, 1),
            (4096, 2048),
            (4096, 4095),
        ] {
            for order in [1, 2, 4, 5, 6, 8] {
                let function = Coefficients::random(random, order, stable);
                points.push(Point {
                    k_max,
                    function,
                    n,
                    i,
                });
            }
        }
    }
    points
}

/// Loci from end to end.
fn loci(random: &mut Random) -> Vec<Point> {
    let mut points = Vec::new();
    for order in [1, 2, 4, 5, 6, 7, 8] {
        let function = Coefficients::random(random, order, moderate);
        for i in 0..17 {
            points.push(Point {
                k_max: 4.0,
                function: function.clone(),
                n: 17,
                i,
            });
        }
    }
    points
}

/// Every order with every number of leading coefficients that do not count, up to all of them;
/// the first that counts is often only just large enough.
pub fn dropped(random: &mut Random) -> Vec<Point> {
    let just_below = with_neighbours(EPS)[0];
    let just_above = with_neighbours(EPS)[2];
    let mut points = Vec::new();
    for order in 1..=MAX_ORDER as usize {
        for dropped in 0..=order + 1 {
            for _ in 0..12 {
                let mut polynomial: Vec<_> =
                    (0..=order).map(|_| random.between(-2.0, 2.0)).collect();
                for (place, c) in polynomial.iter_mut().take(dropped).enumerate() {
                    // The first is 1 + b[0], of which 2^-53 is a divisor.
                    *c = if place == 0 {
                        random.pick(&[0.0, EPS / 2.0])
                    } else {
                        let any = random.between(-EPS, EPS);
                        let tiny = random.subnormal();
                        random.pick(&[0.0, -0.0, just_below, -just_below, any, tiny])
                    };
                }
                if let Some(c) = polynomial.get_mut(dropped) {
                    let any = *c;
                    *c = if dropped == 0 {
                        random.pick(&[EPS, -EPS, any, any])
                    } else {
                        random.pick(&[EPS, -EPS, just_above, -just_above, any, any])
                    };
                }
                points.push(Point::of_polynomial(random, &polynomial));
            }
        }
    }
    // The terms cancel at this gain.
    for order in 1..=MAX_ORDER {
        for cancelled in 1..=order as usize {
            let mut function = Coefficients::random(random, order, moderate);
            function.b[0] = -0.5;
            for k in 1..cancelled {
                function.a[k - 1] = -2.0 * function.b[k];
            }
            points.push(Point {
                k_max: 4.0,
                function,
                n: 3,
                i: 1,
            });
        }
    }
    points
}

/// Polynomials of degree 1 and 2 with coefficients of every class, and with discriminants that are
/// 0, barely not 0, overflow or are a NaN.
pub fn low_degrees(random: &mut Random) -> Vec<Vec<f64>> {
    let leads = [1.0, -1.5, 0.5, EPS, -EPS, power_of_two(512), f64::MAX];
    let mut list = vec![
        vec![0.5, 1.0, random.nan()],
        vec![0.5, random.nan(), 1.0],
        vec![random.nan(), 1.0, 1.0],
        vec![f64::INFINITY, 1.0, 1.0],
        vec![1.0, f64::MAX, f64::MAX],
        vec![f64::MAX, f64::MAX, f64::MAX],
    ];
    for c1 in specials() {
        for lead in [1.0, EPS, -power_of_two(512)] {
            list.push(vec![lead, c1]);
        }
        for c2 in specials() {
            list.push(vec![random.pick(&leads), c1, c2]);
        }
    }
    for _ in 0..60 {
        // Twice the same root, exact in every place; then with one coefficient's neighbour.
        let lead = random.pick(&[1.0, 0.5, -2.0, 3.0]);
        let root = (random.below(2001) as f64 - 1000.0) / 64.0;
        let [c1, c2] = [-2.0 * lead * root, lead * root * root];
        list.push(vec![lead, c1, c2]);
        if c1 != 0.0 {
            list.push(vec![lead, f64::from_bits(c1.to_bits() + 1), c2]);
            list.push(vec![lead, c1, f64::from_bits(c2.to_bits() + 1)]);
        }
    }
    for _ in 0..40 {
        // The order of the factors in 4·c0·c2 decides whether it overflows or vanishes.
        let lead = random.with_exponent(520, 1020);
        let c2 = random.with_exponent(-1020, 500);
        let c1 = random.with_exponent(-500, 520);
        list.push(vec![lead, c1, c2]);
    }
    list
}

/// The product of two polynomials.
fn product(first: &[f64], second: &[f64]) -> Vec<f64> {
    let mut list = vec![0.0; first.len() + second.len() - 1];
    for (i, x) in first.iter().enumerate() {
        for (k, y) in second.iter().enumerate() {
            list[i + k] += x * y;
        }
    }
    list
}

/// The polynomial with these roots, up to rounding.
pub fn with_roots(roots: &[f64]) -> Vec<f64> {
    roots.iter().fold(vec![1.0], |polynomial, root| {
        product(&polynomial, &[1.0, -root])
    })
}

/// The leading 1 and then `degree` coefficients.
pub fn monic(degree: usize, mut coefficient: impl FnMut() -> f64) -> Vec<f64> {
    let mut list = vec![1.0];
    list.extend((0..degree).map(|_| coefficient()));
    list
}

/// Found by a search of our own: in the first round, the divisor of the third root has squared
/// magnitude `EPS`, the next below or the next above.
fn just_skipped() -> Vec<Vec<f64>> {
    #[rustfmt::skip]
    let [at, below, above] = [
        [
            [-1.0666557091382192, -0.06014907863457353, 0.35649405879068574, 7.770310716879212],
            [0.5371581767068232, -1.7510087135252501, -1.7306094505918885, 9.944459977366439],
        ],
        [
            [0.5371581767068392, -1.7510087135252501, -1.7306094505919045, 9.944459977366439],
            [1.6012332627208803, 1.3617421091171593, -0.08210620613827047, 4.119130813476495],
        ],
        [
            [-1.0666557091382227, -0.06014907863457353, 0.3564940587906893, 7.770310716879212],
            [1.1198779457775814, 1.4980527365379057, 1.1914925018329736, 3.190576794330939],
        ],
    ];
    let polynomials = [at, below, above].concat();
    let with_lead = |coefficients: &[f64; 4]| [&[1.0], &coefficients[..]].concat();
    polynomials.iter().map(with_lead).collect()
}

/// Found by a search of our own: in each degree an answer changes with any starting point, be it by
/// the last bit of its cosine or its sine, up or down, or a 0 by its sign. Coefficients behind the
/// leading 1.
fn starting_points(random: &mut Random) -> Vec<Point> {
    let list: [&[f64]; 13] = [
        &[-2.0, 2.0, -2.0, 1.0],
        &[-1.0, 1.0, -1.0, 0.0],
        &[1.0, 1.0, 1.0, 0.0],
        &[-1.0, 1.0, -1.0, -2.0, 2.0],
        &[1.0, -2.0, -2.0, 1.0, 1.0, 0.0],
        &[0.0; 6],
        &[1.0, -1.0, -1.0, 0.0, 0.0, 0.0],
        &[0.0, -1.0, 0.0, -1.0, 1.0, -1.0, 1.0],
        &[0.0, 0.0, 0.0, 0.0, 0.0, 0.0, -1.0],
        &[1.0, 0.0, 1.0, 0.0, -1.0, 0.0, -1.0, -1.0],
        &[-1.0, 0.0, 0.0, 0.0, 0.0, 0.0, -1.0, 1.0],
        &[-1.0, 1.0, -1.0, 0.0, 0.0, 0.0, 0.0, 0.0],
        &[1.0, -1.0, -1.0, 0.0, 0.0, 0.0, 0.0, 0.0],
    ];
    let point = |a: &[f64]| {
        let pairs: Vec<_> = a.iter().map(|&a_k| [0.0, a_k]).collect();
        Point {
            k_max: 1.0,
            function: Coefficients::new(random, &pairs),
            n: 2,
            i: 1,
        }
    };
    list.map(point).into()
}

/// Sums of two zeros of any signs for the middle coefficient of a quadratic, whose sign its poles
/// show.
fn zeros(random: &mut Random) -> Vec<Point> {
    let mut points = Vec::new();
    for a in [0.0, -0.0] {
        for (b, i) in [(0.0, 1), (-0.0, 1), (1.0, 0), (-1.0, 0)] {
            points.push(Point {
                k_max: 1.0,
                function: Coefficients::new(random, &[[0.0, a], [b, 1.0]]),
                n: 2,
                i,
            });
        }
    }
    points
}

/// Polynomials for the search. Some need all its rounds, some overflow or hold NaNs.
pub fn high_degrees(random: &mut Random) -> Vec<Vec<f64>> {
    let mut list = just_skipped();
    for degree in 4..=MAX_ORDER as usize {
        // The same root throughout, and roots close to each other.
        for root in [0.0, 1.0, -1.0, 0.5, 2.0, -0.9, 0.001, 100.0] {
            list.push(with_roots(&vec![root; degree]));
        }
        for distance in [0.1, 1e-3, 1e-6, 1e-9] {
            let roots: Vec<_> = (0..degree).map(|i| 0.5 + distance * i as f64).collect();
            list.push(with_roots(&roots));
        }
        // Roots far apart.
        for base in [0.25, 1.5, 10.0, 1000.0] {
            let mut root = 0.125;
            let roots: Vec<f64> = (0..degree)
                .map(|_| {
                    root *= -base;
                    root
                })
                .collect();
            list.push(with_roots(&roots));
        }
        // Roots on a circle; with -1 they are the points where the search starts.
        for constant in [
            -1.0,
            1.0,
            -0.5,
            16.0,
            1e-20,
            -1e20,
            1e300,
            f64::from_bits(1),
        ] {
            let mut polynomial = monic(degree, || 0.0);
            polynomial[degree] = constant;
            list.push(polynomial);
        }
        list.push(monic(degree, || 1.0));
        // One of those points is a root, if only all but exactly.
        for factor in [[1.0, -1.0], [1.0, 1.0]] {
            for _ in 0..4 {
                let rest = monic(degree - 1, || random.between(-2.0, 2.0));
                list.push(product(&rest, &factor));
            }
        }
        // At the first of those points, (1, 0), the value is 0. At others it overflows to a NaN,
        // which does not keep the search from ending.
        for place in 2..degree {
            let mut polynomial = monic(degree, || 0.0);
            polynomial[1] = -1.0;
            polynomial[place] = 1.7e308;
            polynomial[place + 1] = -1.7e308;
            list.push(polynomial);
        }
        // There the value is the last coefficient, and the largest change 1e-12 or next to it.
        for step in 0..9 {
            let mut polynomial = monic(degree, || 0.0);
            polynomial[1..4].copy_from_slice(&[-1.0, 1.7e308, -1.7e308]);
            let constant = degree as f64 * 1e-12;
            polynomial[degree] = f64::from_bits(constant.to_bits() - 4 + step);
            list.push(polynomial);
        }
        // One root is huge.
        for size in [1e4, 1e6, 8e8, -8e8, 1e12, 1e15, 1e40, 1e100, 1e160, 1e300] {
            let mut polynomial = monic(degree, || random.between(-2.0, 2.0));
            polynomial[1] = size;
            list.push(polynomial);
        }
        // One coefficient, or each, is what leads to overflow or NaN.
        for place in 1..=degree {
            for value in [f64::INFINITY, f64::NEG_INFINITY, -f64::MAX, random.nan()] {
                let mut polynomial = monic(degree, || random.between(-2.0, 2.0));
                polynomial[place] = value;
                list.push(polynomial);
            }
        }
        for _ in 0..8 {
            list.push(monic(degree, || random.with_exponent(900, 1023)));
            list.push(monic(degree, || random.with_exponent(0, 60)));
            list.push(monic(degree, || random.with_exponent(-60, 0)));
            list.push(monic(degree, || random.subnormal()));
            list.push(monic(degree, || random.special()));
        }
        // Palindromes of both signs.
        for _ in 0..10 {
            let sign = random.pick(&[1.0, -1.0]);
            let mut polynomial = monic(degree, || random.between(-3.0, 3.0));
            for k in 0..=degree / 2 {
                polynomial[degree - k] = sign * polynomial[k];
            }
            list.push(polynomial);
        }
        // Small whole numbers, leading ones among them.
        for _ in 0..40 {
            let mut polynomial = monic(degree, || random.below(7) as f64 - 3.0);
            polynomial[0] = random.pick(&[1.0, 1.0, -1.0, 2.0, 3.0, 0.5]);
            list.push(polynomial);
        }
        // Pairs inside the circle, on it and outside.
        for _ in 0..12 {
            let mut polynomial = vec![1.0];
            for _ in 0..degree / 2 {
                let re = random.between(-1.2, 1.2);
                let im = random.between(-1.2, 1.2);
                polynomial = product(&polynomial, &[1.0, -2.0 * re, re * re + im * im]);
            }
            if degree % 2 == 1 {
                polynomial = product(&polynomial, &[1.0, random.between(-1.2, 1.2)]);
            }
            list.push(polynomial);
        }
    }
    list
}

/// Every refusal at its limit and past it, alone and with the others.
fn refused(random: &mut Random) -> Vec<Point> {
    let mut points = Vec::new();
    for n in [0, 1, 2, MAX_POINTS, MAX_POINTS + 1, u64::MAX] {
        for order in [0, 1, 3, 8, 9, 1 << 32, u64::MAX] {
            for i in [0, n.saturating_sub(1), n, u64::MAX] {
                let negative = random.pick(&[0.0, -0.0, -f64::from_bits(1), -1.0, -f64::INFINITY]);
                let positive = random.pick(&[f64::from_bits(1), 1.0]);
                for k_max in [negative, positive, random.nan()] {
                    let function = Coefficients::random(random, order, stable);
                    points.push(Point {
                        k_max,
                        function,
                        n,
                        i,
                    });
                }
            }
        }
    }
    points
}

/// A pole with this squared magnitude, which is about 1.
pub fn pole_of_square(random: &mut Random, square: f64) -> [f64; 2] {
    loop {
        let re = random.between(-1.0, 1.0);
        let im = beside(re, square) * random.pick(&[1.0, -1.0]);
        if re * re + im * im == square {
            return random.pick(&[[re, im], [im, re]]);
        }
    }
}

pub fn pole_inside(random: &mut Random) -> [f64; 2] {
    [(); 2].map(|_| random.between(-0.7, 0.7))
}

fn regions(random: &mut Random) -> Vec<Region> {
    let circle = with_neighbours(1.0);
    let mut regions = Vec::new();
    for counted in [
        [1.0, 0.0],
        [0.5, 0.5],
        [random.nan(), 0.0],
        [0.0, random.nan()],
    ] {
        regions.push(Region::new(random, &[counted]));
    }
    // Every count with a pole that is not inside in every place, counted or not, or in none.
    for count in (0..=10).chain([255, 256, 1 << 32, (1 << 32) + 8, u64::MAX]) {
        for place in 0..=8 {
            for _ in 0..3 {
                let mut poles = [(); 8].map(|_| pole_inside(random));
                if place < 8 {
                    let square = random.pick(&circle[1..]);
                    poles[place] = pole_of_square(random, square);
                }
                regions.push(Region { count, poles });
            }
        }
    }
    // Squared magnitude 1, the next below and the next above.
    for square in circle {
        for _ in 0..60 {
            let mut counted: Vec<_> = (0..random.below(8)).map(|_| pole_inside(random)).collect();
            counted.push(pole_of_square(random, square));
            regions.push(Region::new(random, &counted));
        }
    }
    // Poles of every class.
    for re in specials() {
        for im in specials() {
            regions.push(Region::new(random, &[[re, im]]));
        }
    }
    for _ in 0..200 {
        regions.push(mixed_region(random));
    }
    regions
}

/// Up to eight poles, mostly inside the circle.
pub fn mixed_region(random: &mut Random) -> Region {
    let counted: Vec<_> = (0..random.below(9))
        .map(|_| match random.below(12) {
            0 => [random.special(), random.special()],
            1 => [random.uniform_bits(), random.uniform_bits()],
            2 => [(); 2].map(|_| random.between(-1.0, 1.0)),
            _ => pole_inside(random),
        })
        .collect();
    Region::new(random, &counted)
}
