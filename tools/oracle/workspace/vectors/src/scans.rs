//! Vectors for the scans: crossovers, margins, bandwidth and the closest approach.

use crate::numbers::{LENGTHS_DIFFER, MAX_POINTS, NONE, NOT_ASKED, TOO_MANY, VALUE};
use crate::random::{next_above, next_below, power_of_two, specials, with_neighbours, Random, EPS};
use crate::rows::{float, list, record, Rows};
use crate::words::Words;
use heapless::Vec as HVec;
use oxictl::core::frequency_domain::{
    bandwidth, distance_to_critical, gain_crossover_frequency, gain_margin,
    phase_crossover_frequency, phase_margin, sensitivity_crossover, BodeData, BodePoint,
    NyquistData, NyquistPoint, SensitivityData, SensitivityPoint,
};
use std::fmt::Debug;
use Kind::*;

/// As many readings the Rust's lists can hold: no scan that is not refused has more.
pub const ROOM: usize = MAX_POINTS as usize;
/// Short lists are held in less room, which is faster.
pub const SHORT: usize = 64;
/// No list is longer without its pad.
const MAX_EXPLICIT: usize = 80;
/// No list is longer with it.
const MAX_LENGTH: usize = 5000;

/// The phase that is crossed.
pub const HALF_TURN: f64 = -180.0;

/// A value, none, or the number of a refusal.
pub type Answer = Result<Option<f64>, u64>;

/// How to make a list of a length, whose values lie about a centre.
pub type Style = fn(&mut Random, usize, f64) -> Vec<f64>;

#[derive(Clone, Copy, Debug, PartialEq)]
pub enum Kind {
    /// ω, dB, phase.
    Bode = 1,
    /// ω, S, T.
    Sensitivity,
    /// Real part, imaginary part.
    Curve,
}

impl Kind {
    pub fn lists(self) -> usize {
        match self {
            Bode | Sensitivity => 3,
            Curve => 2,
        }
    }

    fn questions(self) -> usize {
        match self {
            Bode => 5,
            Sensitivity => 2,
            Curve => 1,
        }
    }
}

/// What is asked. Before a list that is not empty stand `pad` more copies of its first element.
struct Case {
    kind: Kind,
    pad: usize,
    lists: [Vec<f64>; 3],
}

impl Case {
    fn new(kind: Kind, lists: [&[f64]; 3]) -> Self {
        Self::padded(kind, 0, lists)
    }

    fn padded(kind: Kind, pad: usize, lists: [&[f64]; 3]) -> Self {
        let lists = lists.map(<[f64]>::to_vec);
        Self { kind, pad, lists }
    }

    /// The lists of its kind, with the pad before each.
    fn whole_lists(&self) -> Vec<Vec<f64>> {
        let whole = |list: &Vec<f64>| {
            let first = list.iter().take(1).cycle();
            first.take(self.pad).chain(list).copied().collect()
        };
        self.lists[..self.kind.lists()].iter().map(whole).collect()
    }
}

pub fn vectors() -> Words {
    let random = &mut Random::new(3);
    let mut cases = worked();
    cases.extend(bode_edges(random).iter().map(|lists| {
        let [omega, db, phase] = lists;
        Case::new(Bode, [omega, db, phase])
    }));
    cases.extend(enclosures(random));
    cases.extend(sensitivity_edges(random));
    cases.extend(bandwidth_edges(random));
    cases.extend(curve_edges(random));
    cases.extend(random_sweeps(random));
    cases.extend(random_curves(random));
    cases.extend(long(random));
    cases.extend(refused(random));

    let mut words = Words::default();
    for case in &cases {
        write(&mut words, case);
    }

    words.wrong_on_purpose(|_| ());
    for no_question in [0, 4] {
        for word in [no_question, 1, 1, 1, 0] {
            words.word(word);
        }
        words.arguments(&[1.0; 3]);
        words.wrong_as_it_stands();
    }
    words
}

fn write(words: &mut Words, case: &Case) {
    words.word(case.kind as u64);
    for list in &case.lists {
        words.word(list.len() as u64);
    }
    words.word(case.pad as u64);
    for list in &case.lists {
        words.arguments(list);
    }
    let answers = answers(case);
    for answer in answers {
        words.answer(number(answer), &[answer.ok().flatten().unwrap_or(0.0)]);
    }
    let numbers = answers.map(|answer| number(answer).to_string());
    words.count(format!("{:?}: {}", case.kind, numbers.join(" ")));
}

/// Rows for the prover.
pub fn rows(rows: &mut Rows, random: &mut Random) {
    let crossing = 2.5;
    let mut cases = Vec::new();
    for (frequencies, levels) in [
        (FREQUENCIES[0], LEVELS[0]),
        (FREQUENCIES[2], swinging as Style),
        (FREQUENCIES[3], near),
        (FREQUENCIES[0], with_specials),
    ] {
        let lists = [
            frequencies(random, 6, 5.0),
            levels(random, 6, 0.0),
            levels(random, 6, HALF_TURN),
        ];
        cases.push(Case::new(Bode, [&lists[0], &lists[1], &lists[2]]));
        let t = levels(random, 6, 0.0);
        cases.push(Case::new(Sensitivity, [&lists[0], &lists[1], &t]));
    }
    // The first pair encloses the crossover of the second, or just does not.
    for first in [crossing, next_above(crossing)] {
        cases.push(Case::new(
            Bode,
            [
                &[first, 4.0, 2.0, 3.0],
                &[5.0, 4.5, 1.0, -1.0],
                &[-100.0, -121.0, -170.0, -190.0],
            ],
        ));
    }
    for size in with_neighbours(EPS) {
        let omega = random.pick(&[[0.1, 0.3], [3.0, 0.5]]);
        let db = apart(random, size);
        cases.push(Case::new(Bode, [&omega, &db, &[-180.0, -170.0]]));
        cases.push(Case::new(Sensitivity, [&omega, &db, &[3.0, -0.0]]));
    }
    // The sign of a crossover of 0.
    cases.push(Case::new(
        Bode,
        [&[-0.0, 1.0], &[0.0, 5.0], &[-180.0, -170.0]],
    ));
    cases.push(Case::new(
        Sensitivity,
        [&[-0.0, 1.0], &[0.0, 5.0], &[0.0, -4.0]],
    ));
    // The level is rounded.
    let first = power_of_two(54) + 4.0;
    let level = first - 3.0;
    let t = [first, level, next_below(level)];
    cases.push(Case::new(Sensitivity, [&[1.0, 2.0, 4.0], &t, &t]));
    for parts in [swinging as Style, with_specials, special] {
        let lists = [parts(random, 5, -1.0), parts(random, 5, 0.0)];
        cases.push(Case::new(Curve, [&lists[0], &lists[1], &[]]));
    }
    for (kind, pad, lengths) in [
        (Bode, 0, [2, 2, 1]),
        (Sensitivity, 0, [1, 2, 2]),
        (Curve, 0, [1, 2, 0]),
        (Bode, ROOM, [1, 1, 1]),
        (Curve, ROOM, [1, 1, 0]),
    ] {
        let lists = lengths.map(|length| swinging(random, length, 0.0));
        cases.push(Case { kind, pad, lists });
    }
    rows.table(
        "scans",
        "sweeps of several styles; pairs that enclose a crossover or just do not; differences of eps or next to it; the sign of a crossover of 0; a level that is rounded; refusals",
    );
    for case in &cases {
        let questions: &[&str] = match case.kind {
            Bode => &[
                "gain_crossover",
                "phase_crossover",
                "gain_margin",
                "phase_margin",
            ],
            Sensitivity => &["sensitivity_crossover", "bandwidth"],
            Curve => &["distance_to_critical"],
        };
        let sweep = name(rows, case.kind, case.pad, &case.lists[..case.kind.lists()]);
        for (question, answer) in questions.iter().zip(answers(case)) {
            let value: Vec<_> = answer.ok().flatten().into_iter().collect();
            rows.row(&format!("{question} {sweep}"), number(answer), &value);
        }
    }
}

/// Names what a scan or a feed is handed.
pub fn name(rows: &mut Rows, kind: Kind, pad: usize, lists: &[Vec<f64>]) -> String {
    let fields: &[&str] = match kind {
        Bode => &["omega", "db", "phase"],
        Sensitivity => &["omega", "s", "t"],
        Curve => &["re", "im"],
    };
    let whole = |values: &Vec<f64>| match values.first() {
        Some(&first) if pad > 0 => format!("replicate {pad} {} ++ {}", float(first), list(values)),
        _ => list(values),
    };
    let fields: Vec<_> = fields
        .iter()
        .copied()
        .zip(lists.iter().map(whole))
        .collect();
    let word = format!("{kind:?}").to_lowercase();
    rows.name(&word, &format!("{kind:?}"), &record(&fields))
}

pub fn number(answer: Answer) -> u64 {
    match answer {
        Ok(Some(_)) => VALUE,
        Ok(None) => NONE,
        Err(number) => number,
    }
}

/// Document 01's conditions, in its order.
pub fn refusal<L: AsRef<[f64]>>(lists: &[L]) -> Option<u64> {
    let length = lists[0].as_ref().len();
    if lists.iter().any(|list| list.as_ref().len() != length) {
        Some(LENGTHS_DIFFER)
    } else if length > ROOM {
        Some(TOO_MANY)
    } else {
        None
    }
}

fn answers(case: &Case) -> [Answer; 5] {
    let mut answers = [Err(NOT_ASKED); 5];
    let lists = case.whole_lists();
    match refusal(&lists) {
        Some(number) => {
            answers[..case.kind.questions()].fill(Err(number));
            if number == LENGTHS_DIFFER {
                // Such lists are no list of readings.
                answers[4] = Err(NOT_ASKED);
            }
        }
        None => {
            let values = scan(case.kind, &lists);
            for (answer, value) in answers.iter_mut().zip(values) {
                *answer = Ok(value);
            }
        }
    }
    answers
}

/// What the Rust answers to the questions of a kind.
pub fn scan(kind: Kind, lists: &[Vec<f64>]) -> Vec<Option<f64>> {
    match lists[0].len() {
        0..=SHORT => scan_in::<SHORT>(kind, lists),
        _ => scan_in::<ROOM>(kind, lists),
    }
}

fn scan_in<const N: usize>(kind: Kind, lists: &[Vec<f64>]) -> Vec<Option<f64>> {
    match kind {
        Bode => {
            let data = bode_data::<N>([&lists[0], &lists[1], &lists[2]]);
            vec![
                gain_crossover_frequency(&data),
                phase_crossover_frequency(&data),
                gain_margin(&data),
                phase_margin(&data),
                gain_crossover_frequency(&data),
            ]
        }
        Sensitivity => {
            let data = sensitivity_data::<N>([&lists[0], &lists[1], &lists[2]]);
            vec![sensitivity_crossover(&data), bandwidth(&data)]
        }
        Curve => {
            let data = nyquist_data::<N>([&lists[0], &lists[1]]);
            vec![Some(distance_to_critical(&data))]
        }
    }
}

/// Fills what the Rust has and a scan does not read.
const UNREAD: f64 = f64::NAN;

/// ω, dB and phase as the Rust holds them.
pub fn bode_data<const N: usize>([omega, db, phase]: [&[f64]; 3]) -> BodeData<f64, N> {
    let points = (0..omega.len()).map(|i| BodePoint {
        omega: omega[i],
        magnitude_db: db[i],
        phase_deg: phase[i],
    });
    BodeData {
        points: held(points),
    }
}

/// ω, S and T as the Rust holds them.
pub fn sensitivity_data<const N: usize>([omega, s, t]: [&[f64]; 3]) -> SensitivityData<f64, N> {
    let points = (0..omega.len()).map(|i| SensitivityPoint {
        omega: omega[i],
        sensitivity_db: s[i],
        comp_sensitivity_db: t[i],
        control_sensitivity_db: UNREAD,
    });
    SensitivityData {
        points: held(points),
    }
}

/// Real and imaginary parts as the Rust holds them.
pub fn nyquist_data<const N: usize>([re, im]: [&[f64]; 2]) -> NyquistData<f64, N> {
    let points = (0..re.len()).map(|i| NyquistPoint {
        re: re[i],
        im: im[i],
        omega: UNREAD,
    });
    NyquistData {
        points: held(points),
    }
}

fn held<T: Debug, const N: usize>(points: impl Iterator<Item = T>) -> HVec<T, N> {
    let mut list = HVec::new();
    for point in points {
        list.push(point).expect("there is room");
    }
    list
}

/// Document 01's worked cases, and the smallest ones that show a rule.
fn worked() -> Vec<Case> {
    const INF: f64 = f64::INFINITY;
    const NAN: f64 = f64::NAN;
    const FAR: f64 = 4_503_599_627_370_499.0;

    #[rustfmt::skip]
    let bode: [[&[f64]; 3]; 30] = [
        [&[1.0, 2.0, 4.0, 8.0], &[6.0, 2.0, -2.0, -10.0], &[-90.0, -120.0, -160.0, -200.0]],
        // The margin is of the first pair, the crossover of the third.
        [&[1.0, 4.0, 2.0, 3.0], &[5.0, 5.0, 1.0, -1.0], &[-100.0, -140.0, -150.0, -170.0]],
        // The crossover lies past its own pair, in none or in the next.
        [&[1.5, FAR], &[1.0, 0.0], &[-100.0, -120.0]],
        [&[1.5, FAR], &[1.0, 0.0], &[-170.0, -190.0]],
        [&[1.5, FAR, FAR + 2.0], &[1.0, 0.0, -1.0], &[-100.0, -120.0, -150.0]],
        [&[1.5, FAR], &[-1.0, 2.0], &[-179.0, -180.0]],
        // No reading, one, two of 0 dB.
        [&[], &[], &[]],
        [&[1.0], &[0.0], &[-180.0]],
        [&[1.0, 2.0], &[0.0, 0.0], &[-180.0, -180.0]],
        [&[1.0, 2.0], &[0.0, -0.0], &[-180.0, -170.0]],
        [&[1.0, 2.0], &[-0.0, 0.0], &[-170.0, -180.0]],
        [&[1.0, 2.0], &[-0.0, 3.0], &[-190.0, -180.0]],
        [&[1.0, 2.0], &[-3.0, 0.0], &[-180.0, -190.0]],
        // The sign of a crossover of 0.
        [&[-0.0, 1.0], &[0.0, 5.0], &[-180.0, -170.0]],
        [&[-0.0, 1.0], &[-0.0, 5.0], &[-180.0, -170.0]],
        [&[-0.0, 1.0], &[0.0, -5.0], &[-180.0, -170.0]],
        [&[-0.0, -0.0], &[0.0, 0.0], &[-180.0, -170.0]],
        // Falling, equal.
        [&[2.0, 1.0], &[1.0, -1.0], &[-100.0, -120.0]],
        [&[2.0, 1.0, 2.0], &[1.0, -1.0, -1.0], &[-170.0, -190.0, -200.0]],
        [&[2.0, 2.0], &[1.0, -1.0], &[-100.0, -120.0]],
        [&[2.0, 2.0], &[7.0, 9.0], &[-170.0, -190.0]],
        // A crossing that carries a NaN ends the scan.
        [&[1.0, 2.0, 3.0], &[INF, -INF, 1.0], &[INF, -INF, -170.0]],
        [&[1.0, 2.0, 3.0], &[INF, -1.0, 1.0], &[-INF, -170.0, -190.0]],
        // A NaN in dB never crosses, one in phase does.
        [&[1.0, 2.0, 3.0], &[1.0, NAN, -1.0], &[-170.0, NAN, -190.0]],
        [&[1.0, 2.0, 3.0, 4.0], &[1.0, NAN, -1.0, 1.0], &[NAN, NAN, -190.0, -170.0]],
        // Magnitude 0 at the phase crossover, phase -180 at the gain crossover.
        [&[1.0, 2.0, 3.0], &[2.0, 1.0, -1.0], &[-170.0, -180.0, -180.0]],
        [&[1.0, 3.0], &[1.0, -1.0], &[-170.0, -190.0]],
        [&[1.0, 2.0, 3.0], &[1.0, 0.0, -1.0], &[-170.0, -180.0, -190.0]],
        [&[1.0, 2.0], &[-0.0, -0.0], &[-180.0, -170.0]],
        // Several crossings: the first counts.
        [&[1.0, 2.0, 3.0, 4.0], &[1.0, -1.0, 1.0, -1.0], &[-170.0, -190.0, -170.0, -190.0]],
    ];
    #[rustfmt::skip]
    let sensitivity: [[&[f64]; 3]; 16] = [
        [&[1.0, 2.0, 4.0], &[-20.0, -10.0, 5.0], &[0.0, -1.0, -5.0]],
        [&[], &[], &[]],
        [&[1.0], &[0.0], &[0.0]],
        // S - T, and not T - S.
        [&[-0.0, 1.0], &[-0.0, 1.0], &[0.0, 0.0]],
        [&[-0.0, 1.0], &[0.0, 1.0], &[-0.0, 0.0]],
        [&[-0.0, 1.0], &[0.0, 0.0], &[0.0, 1.0]],
        [&[1.0, 2.0], &[4.0, 4.0], &[4.0, 4.0]],
        [&[1.0, 2.0], &[INF, INF], &[INF, INF]],
        [&[1.0, 2.0, 3.0], &[INF, 1.0, 3.0], &[INF, 2.0, 2.0]],
        [&[1.0, 2.0], &[INF, 0.0], &[0.0, INF]],
        // Exactly the level is not below it, and the level may lie between two readings.
        [&[1.0, 2.0], &[0.0, 0.0], &[0.0, -3.0]],
        [&[1.0, 2.0, 3.0], &[1.0, 1.0, 1.0], &[0.0, -3.0, -4.0]],
        // A first T that is no number to compare with.
        [&[1.0, 2.0, 3.0], &[0.0, 0.0, 0.0], &[NAN, 1.0, -9.0]],
        [&[1.0, 2.0, 3.0], &[0.0, 0.0, 0.0], &[INF, 1.0, -9.0]],
        [&[1.0, 2.0, 3.0], &[0.0, 0.0, 0.0], &[-INF, 1.0, -9.0]],
        // Below the level and above it again, past a NaN.
        [&[1.0, 2.0, 3.0, 4.0, 5.0], &[9.0; 5], &[0.0, NAN, -5.0, -1.0, -5.0]],
    ];
    let curve: [[&[f64]; 2]; 9] = [
        [&[0.0, -1.0], &[0.0, 0.5]],
        [&[], &[]],
        [&[-1.0], &[-0.0]],
        [&[NAN, 1.0], &[0.0, 0.0]],
        [&[1.0, 1.0], &[0.0, NAN]],
        [&[NAN], &[NAN]],
        [&[1e200, 1.0], &[0.0, 0.0]],
        [&[1e200], &[0.0]],
        [&[-INF], &[1.0]],
    ];
    let mut cases = Vec::new();
    cases.extend(bode.map(|lists| Case::new(Bode, lists)));
    cases.extend(sensitivity.map(|lists| Case::new(Sensitivity, lists)));
    cases.extend(curve.map(|[re, im]| Case::new(Curve, [re, im, &[]])));
    cases
}

/// The lists of these cases, of one kind.
pub fn worked_lists(kind: Kind) -> Vec<Vec<Vec<f64>>> {
    let cases = worked().into_iter().filter(|case| case.kind == kind);
    cases
        .map(|case| case.lists[..kind.lists()].to_vec())
        .collect()
}

/// Values about 0 and at the ends of the range; differences of two are `EPS` or next to it.
fn edges() -> Vec<f64> {
    let mut list = Vec::new();
    for size in [
        0.0,
        f64::from_bits(1),
        EPS / 2.0,
        1.0,
        f64::MAX,
        f64::INFINITY,
    ]
    .into_iter()
    .chain(with_neighbours(EPS))
    {
        list.extend([size, -size]);
    }
    list
}

/// Values about -180 and at the ends of the range.
fn phase_edges() -> Vec<f64> {
    let about = [
        next_below(HALF_TURN),
        HALF_TURN,
        next_above(HALF_TURN),
        -190.0,
        -170.0,
    ];
    let others = [0.0, 180.0, f64::MAX, f64::INFINITY];
    let negated = others.map(|value| -value);
    [&about[..], &others[..], &negated[..]].concat()
}

/// An edge, or a NaN now and then.
fn edge(random: &mut Random, edges: &[f64]) -> f64 {
    match random.below(12) {
        0 => random.nan(),
        _ => random.pick(edges),
    }
}

/// Two values on both sides of 0 that are `size` apart, but for rounding.
fn apart(random: &mut Random, size: f64) -> [f64; 2] {
    let first = random.between(-size, size);
    let step = if first < 0.0 { size } else { -size };
    [first, first + step]
}

/// Two frequencies with which a crossing is told from its ends, or is not.
fn two_frequencies(random: &mut Random) -> [f64; 2] {
    random.pick(&[
        [1.0, 2.0],
        [1.0, 2.0],
        [0.1, 0.3],
        [-0.0, 1.0],
        [3.0, 0.5],
        [2.0, 2.0],
        [1.0, 1.0 + EPS],
        [0.0, EPS],
    ])
}

/// Two readings: every pair of edges in dB, in phase and in ω, and what is next to `EPS` apart.
pub fn bode_edges(random: &mut Random) -> Vec<[Vec<f64>; 3]> {
    let (edges, phase_edges) = (edges(), phase_edges());
    let mut cases = Vec::new();
    let mut add = |omega: [f64; 2], db: [f64; 2], phase: [f64; 2]| {
        cases.push([omega, db, phase].map(Vec::from));
    };
    for &first in &edges {
        for &second in &edges {
            let phase = [(); 2].map(|_| edge(random, &phase_edges));
            add(two_frequencies(random), [first, second], phase);
        }
    }
    for &first in &phase_edges {
        for &second in &phase_edges {
            let db = [(); 2].map(|_| edge(random, &edges));
            add(two_frequencies(random), db, [first, second]);
        }
    }
    for first in specials() {
        for second in specials() {
            let db = random.pick(&[[1.0, -1.0], [-1.0, 3.0], [0.0, 2.0], [2.0, 0.0]]);
            let phase = random.pick(&[[-170.0, -190.0], [-185.0, -170.0], [-180.0, -90.0]]);
            add([first, second], db, phase);
        }
    }
    for size in with_neighbours(EPS) {
        for _ in 0..20 {
            let db = apart(random, size);
            add(two_frequencies(random), db, [-170.0, -190.0]);
        }
    }
    for _ in 0..100 {
        let db = [(); 2].map(|_| edge(random, &edges));
        let phase = [(); 2].map(|_| edge(random, &phase_edges));
        add(two_frequencies(random), db, phase);
    }
    cases
}

/// Four readings. The last two cross, for gain and for phase, at 2.5 times a scale; whether the
/// first two enclose that is decided by their ω. On some scales ω differs by `EPS` or less.
fn enclosures(random: &mut Random) -> Vec<Case> {
    let crossing = 2.5;
    let ends = [
        1.0,
        2.25,
        next_below(crossing),
        crossing,
        next_above(crossing),
        2.75,
        4.0,
        f64::INFINITY,
        f64::NEG_INFINITY,
    ];
    let mut cases = Vec::new();
    let mut add = |scale: f64, [first, second]: [f64; 2]| {
        cases.push(Case::new(
            Bode,
            [
                &[first, second, 2.0 * scale, 3.0 * scale],
                &[5.0, 4.5, 1.0, -1.0],
                &[-100.0, -121.0, -170.0, -190.0],
            ],
        ));
    };
    for scale in [1.0, EPS, EPS / 2.0, power_of_two(-60), power_of_two(1000)] {
        for first in ends {
            for second in ends {
                add(scale, [first * scale, second * scale]);
            }
            add(scale, [first * scale, random.nan()]);
            add(scale, [random.nan(), first * scale]);
        }
    }
    cases
}

/// Two readings: every pair of edges in S - T, and edges in all of S and T.
fn sensitivity_edges(random: &mut Random) -> Vec<Case> {
    let edges = edges();
    let mut cases = Vec::new();
    let mut add = |omega: [f64; 2], s: [f64; 2], t: [f64; 2]| {
        cases.push(Case::new(Sensitivity, [&omega, &s, &t]));
    };
    for &first in &edges {
        for &second in &edges {
            let t = [(); 2].map(|_| random.pick(&[0.0, -0.0]));
            add(two_frequencies(random), [first, second], t);
        }
    }
    for _ in 0..300 {
        let [s0, s1, t0, t1] = [(); 4].map(|_| edge(random, &edges));
        add(two_frequencies(random), [s0, s1], [t0, t1]);
    }
    for first in specials() {
        for second in specials() {
            let s = random.pick(&[[1.0, -1.0], [-1.0, 3.0], [0.0, -2.0], [-8.0, -4.0]]);
            add([first, second], s, [0.0, -4.0]);
        }
    }
    for size in with_neighbours(EPS) {
        for _ in 0..20 {
            let difference = apart(random, size);
            add(two_frequencies(random), difference, [0.0; 2]);
            add(two_frequencies(random), [0.0; 2], difference);
        }
    }
    cases
}

/// First values of T of every class, then T at the level, next to it and far below it.
fn bandwidth_edges(random: &mut Random) -> Vec<Case> {
    let omega = [1.0, 2.0, 4.0, 8.0];
    let s = [-20.0, -10.0, 0.0, 6.0];
    let mut cases = Vec::new();
    let mut add = |t: &[f64]| {
        let n = t.len();
        cases.push(Case::new(Sensitivity, [&omega[..n], &s[..n], t]));
    };
    let firsts = [
        0.0,
        -0.0,
        3.0,
        next_above(3.0),
        next_below(3.0),
        -3.0,
        0.1,
        -0.7,
        1e-20,
        f64::from_bits(1),
        3.0 + EPS * 2.0,
        // From here on the level is rounded, in the end to the first value itself.
        power_of_two(53),
        power_of_two(53) + 2.0,
        power_of_two(54),
        power_of_two(54) + 4.0,
        power_of_two(55),
        1e17,
        -1e17,
        f64::MAX,
        -f64::MAX,
    ];
    for first in firsts {
        let level = first - 3.0;
        let below = next_below(level);
        for second in [
            level,
            below,
            next_above(level),
            f64::NEG_INFINITY,
            random.nan(),
        ] {
            add(&[first, second]);
            add(&[first, second, below]);
            add(&[first, second, level, below]);
        }
    }
    for first in [f64::INFINITY, f64::NEG_INFINITY, random.nan(), random.nan()] {
        for second in [
            f64::INFINITY,
            f64::MAX,
            1.0,
            f64::NEG_INFINITY,
            random.nan(),
        ] {
            add(&[first, second]);
            add(&[first, second, -9.0]);
        }
    }
    // The level is 0, and the readings on its sides are less than `EPS` apart, or that far.
    for below in with_neighbours(EPS).map(|size| -size) {
        add(&[3.0, 0.0, below]);
        add(&[3.0, EPS / 2.0, below / 2.0]);
        add(&[3.0, EPS / 4.0, below]);
        add(&[3.0, f64::from_bits(1), below]);
    }
    cases
}

/// Single points and two points with edges, above all about (-1, 0).
fn curve_edges(random: &mut Random) -> Vec<Case> {
    let mut edges = specials().to_vec();
    edges.extend([
        next_below(-1.0),
        -1.0,
        next_above(-1.0),
        1e-160,
        1e-154,
        1e154,
        -1.3e154,
    ]);
    let mut cases = Vec::new();
    let mut add = |re: &[f64], im: &[f64]| cases.push(Case::new(Curve, [re, im, &[]]));
    for &re in &edges {
        for &im in &edges {
            add(&[re], &[im]);
        }
    }
    for _ in 0..300 {
        let [re, im] = [(); 2].map(|_| [(); 2].map(|_| edge(random, &edges)));
        add(&re, &im);
    }
    // Almost as close as the point before it, and a little closer.
    for _ in 0..60 {
        let [re, im] = [random.between(-2.0, 0.0), random.between(-1.0, 1.0)];
        let closer = random.pick(&[next_below(im.abs()), im.abs(), next_above(im.abs())]);
        add(&[re, re, -2.0 - re], &[im, closer, -im]);
    }
    // Squares that are subnormal.
    for _ in 0..60 {
        let [small, smaller] = [(); 2].map(|_| random.with_exponent(-542, -508));
        add(&[-1.0, -1.0], &[small, smaller]);
    }
    cases
}

/// Mostly a few readings.
pub fn length(random: &mut Random) -> usize {
    let (least, spread) = match random.below(10) {
        0 => (0, 3),
        1..=6 => (2, 5),
        7 | 8 => (7, 14),
        _ => (21, 44),
    };
    least + random.below(spread) as usize
}

/// Mostly none.
fn short_pad(random: &mut Random) -> usize {
    random.below(40).saturating_sub(34) as usize
}

/// Styles of frequencies.
pub const FREQUENCIES: [Style; 9] = [
    rising,
    falling_frequencies,
    unsorted,
    repeated,
    next_to_each_other,
    with_specials,
    special,
    huge,
    uniform_bits,
];

/// Styles of levels.
pub const LEVELS: [Style; 10] = [
    falling,
    falling,
    late,
    one_sided,
    swinging,
    near,
    with_specials,
    special,
    huge,
    uniform_bits,
];

/// Readings with every style of frequencies beside every style of levels.
fn random_sweeps(random: &mut Random) -> Vec<Case> {
    let mut cases = Vec::new();
    for (kind, centre) in [(Bode, HALF_TURN), (Sensitivity, 0.0)] {
        for frequencies in FREQUENCIES {
            for levels in LEVELS {
                for _ in 0..6 {
                    let n = length(random);
                    let any = random.pick(&LEVELS);
                    let others = random.pick(&[levels, falling, any]);
                    let lists = [
                        frequencies(random, n, 5.0),
                        levels(random, n, 0.0),
                        others(random, n, centre),
                    ];
                    let pad = short_pad(random);
                    cases.push(Case { kind, pad, lists });
                }
            }
        }
    }
    cases
}

/// Styles of real and imaginary parts.
pub const PARTS: [Style; 6] = [swinging, near, with_specials, special, huge, uniform_bits];

/// Points of every class, and points on circles about (-1, 0) and other places.
fn random_curves(random: &mut Random) -> Vec<Case> {
    let mut cases = Vec::new();
    for parts in PARTS {
        for _ in 0..60 {
            let n = length(random);
            let lists = [parts(random, n, -1.0), parts(random, n, 0.0), Vec::new()];
            let pad = short_pad(random);
            cases.push(Case {
                kind: Curve,
                pad,
                lists,
            });
        }
    }
    for _ in 0..240 {
        let any = random.between(-3.0, 3.0);
        let centre = random.pick(&[-1.0, -0.5, 0.0, any]);
        let radius = random.with_exponent(-30, 3);
        let mut lists = [Vec::new(), Vec::new(), Vec::new()];
        for _ in 0..length(random) {
            // The half angle's tangent.
            let t = random.between(-3.0, 3.0);
            lists[0].push(centre + radius * (1.0 - t * t) / (1.0 + t * t));
            lists[1].push(radius * 2.0 * t / (1.0 + t * t));
        }
        cases.push(Case {
            kind: Curve,
            pad: 0,
            lists,
        });
    }
    cases
}

/// As many readings as there may be, and one more: what counts is at the end, just past the pad,
/// in the pad or nowhere.
fn long(random: &mut Random) -> Vec<Case> {
    let omega: &[f64] = &[1.0, 2.0, 3.0, 4.0];
    let db: [&[f64]; 5] = [
        &[5.0, 4.0, 1.0, -1.0],
        &[5.0, -1.0, 2.0, -2.0],
        &[0.0, -1.0, 2.0, -2.0],
        &[-0.0, 0.0, 0.0, 0.0],
        &[5.0, 4.0, 3.0, 2.0],
    ];
    let phase: [&[f64]; 5] = [
        &[-100.0, -120.0, -170.0, -190.0],
        &[-100.0, -190.0, -120.0, -190.0],
        &[-180.0, -170.0, -190.0, -170.0],
        &[-180.0, -180.0, -180.0, -179.0],
        &[-100.0, -110.0, -120.0, -130.0],
    ];
    let t: [&[f64]; 5] = [
        &[0.0, -1.0, -2.0, -4.0],
        &[0.0, -4.0, 0.0, -4.0],
        &[f64::INFINITY, 1.0, 2.0, 3.0],
        &[0.0, -3.0, -3.0, -3.0],
        &[0.0, 1.0, 2.0, 3.0],
    ];
    let re: [&[f64]; 5] = [
        &[1.0, 0.0, -0.5, -0.75],
        &[1.0, -0.75, -0.5, 0.0],
        &[-0.75, -0.5, 0.0, 1.0],
        &[f64::MAX, -f64::MAX, 1e200, -1e160],
        &[f64::NAN, 1.0, f64::NAN, 2.0],
    ];
    let mut cases = Vec::new();
    for total in [1000, ROOM - 1, ROOM, ROOM + 1] {
        let mut add = |kind: Kind, lists: [&[f64]; 3]| {
            cases.push(Case::padded(kind, total - lists[0].len(), lists));
        };
        for i in 0..5 {
            add(Bode, [omega, db[i], phase[i]]);
            add(Sensitivity, [omega, db[i], t[i]]);
            add(Curve, [re[i], omega, &[]]);
        }
        // The pair that encloses the crossover lies in the pad.
        add(
            Bode,
            [
                &[2.5, 2.0, 3.0],
                &[5.0, 1.0, -1.0],
                &[-150.0, -170.0, -190.0],
            ],
        );
        let n = MAX_EXPLICIT;
        let lists = [rising, late, late].map(|style| style(random, n, 0.0));
        add(Sensitivity, [&lists[0], &lists[1], &lists[2]]);
        add(Curve, [&lists[1], &lists[2], &[]]);
        let phase = late(random, n, HALF_TURN);
        add(Bode, [&lists[0], &lists[1], &phase]);
    }
    cases
}

/// Every refusal at its limit and past it, alone and with the other.
fn refused(random: &mut Random) -> Vec<Case> {
    let longest_pad = MAX_LENGTH - MAX_EXPLICIT;
    let mut cases = Vec::new();
    let mut add = |kind: Kind, pad: usize, lengths: [usize; 3]| {
        let case = Case {
            kind,
            pad,
            lists: lengths.map(|length| swinging(random, length, 0.0)),
        };
        if refusal(&case.whole_lists()).is_some() {
            cases.push(case);
        }
    };
    for pad in [0, 1, ROOM - 2, ROOM, longest_pad] {
        for a in 0..4 {
            for b in 0..4 {
                for c in 0..4 {
                    add(Bode, pad, [a, b, c]);
                    add(Sensitivity, pad, [a, b, c]);
                }
            }
        }
        for a in 0..8 {
            for b in 0..8 {
                add(Curve, pad, [a, b, 0]);
            }
        }
    }
    let most = MAX_EXPLICIT;
    for pad in [0, ROOM - most, ROOM + 1 - most, ROOM + 1, longest_pad] {
        for lengths in [[1, most, most], [most, 1, most], [most, most, 1], [most; 3]] {
            add(Bode, pad, lengths);
            add(Sensitivity, pad, lengths);
            add(Curve, pad, [lengths[0], lengths[1], 0]);
        }
    }
    cases
}

fn rising(random: &mut Random, length: usize, _: f64) -> Vec<f64> {
    let mut value = random.between(0.001, 0.1);
    let mut list = Vec::new();
    for _ in 0..length {
        list.push(value);
        value *= random.between(1.0, 1.9);
    }
    list
}

fn falling_frequencies(random: &mut Random, length: usize, centre: f64) -> Vec<f64> {
    let mut list = rising(random, length, centre);
    list.reverse();
    list
}

fn unsorted(random: &mut Random, length: usize, centre: f64) -> Vec<f64> {
    (0..length)
        .map(|_| random.between(0.0, 2.0 * centre))
        .collect()
}

/// Small whole numbers, so that neighbours are often equal.
fn repeated(random: &mut Random, length: usize, _: f64) -> Vec<f64> {
    (0..length).map(|_| random.below(4) as f64).collect()
}

/// Neighbours that differ by less than `EPS`, by `EPS` or a little more.
fn next_to_each_other(random: &mut Random, length: usize, _: f64) -> Vec<f64> {
    let step = EPS / 4.0;
    let start = random.pick(&[0.0, 0.125]);
    (0..length)
        .map(|_| start + step * random.below(7) as f64)
        .collect()
}

/// From above the centre to below it, as the levels of a real loop.
fn falling(random: &mut Random, length: usize, centre: f64) -> Vec<f64> {
    let mut value = centre + random.between(1.0, 30.0);
    let mut list = Vec::new();
    for _ in 0..length {
        list.push(value);
        value -= random.between(0.0, 12.0);
    }
    list
}

/// On one side of the centre.
fn one_sided(random: &mut Random, length: usize, centre: f64) -> Vec<f64> {
    let side = random.pick(&[-1.0, 1.0]);
    (0..length)
        .map(|_| centre + side * random.between(0.001, 20.0))
        .collect()
}

/// On one side of the centre for most of the list, then on any.
fn late(random: &mut Random, length: usize, centre: f64) -> Vec<f64> {
    let mut list = one_sided(random, length, centre);
    let start = length - random.below(length as u64 + 1).min(3) as usize;
    for value in &mut list[start..] {
        *value = random.between(centre - 10.0, centre + 10.0);
    }
    list
}

fn swinging(random: &mut Random, length: usize, centre: f64) -> Vec<f64> {
    (0..length)
        .map(|_| random.between(centre - 10.0, centre + 10.0))
        .collect()
}

/// The centre, its neighbours and what is a little further away.
fn near(random: &mut Random, length: usize, centre: f64) -> Vec<f64> {
    let about = [
        next_below(centre),
        centre,
        next_above(centre),
        centre - EPS,
        centre + EPS,
    ];
    let further = [centre - 1.0, centre + 1.0, centre - 3.0];
    let values = [&about[..], &about[..], &further[..]].concat();
    (0..length).map(|_| random.pick(&values)).collect()
}

/// Swinging, with a special value now and then.
fn with_specials(random: &mut Random, length: usize, centre: f64) -> Vec<f64> {
    let mut list = swinging(random, length, centre);
    for value in &mut list {
        if random.below(6) == 0 {
            *value = random.special();
        }
    }
    list
}

fn special(random: &mut Random, length: usize, _: f64) -> Vec<f64> {
    (0..length).map(|_| random.special()).collect()
}

/// Numbers whose differences overflow.
fn huge(random: &mut Random, length: usize, _: f64) -> Vec<f64> {
    (0..length)
        .map(|_| random.with_exponent(1021, 1023))
        .collect()
}

fn uniform_bits(random: &mut Random, length: usize, _: f64) -> Vec<f64> {
    (0..length).map(|_| random.uniform_bits()).collect()
}
