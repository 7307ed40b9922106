//! Vectors for the summaries: sweeps and curves that come in parts. What is expected of a summary
//! is what the Rust's scan answers on the uncut list.

use crate::numbers::{MAX_POINTS, NOT_KEPT, VALUE};
use crate::random::{next_above, next_below, Random};
use crate::rows::Rows;
use crate::scans::{
    bode_data, length, name, number, nyquist_data, refusal, sensitivity_data, worked_lists, Answer,
    Kind, Style, FREQUENCIES, HALF_TURN, LEVELS, PARTS, SHORT,
};
use crate::words::Words;
use oxictl::core::frequency_domain::{
    bandwidth, distance_to_critical, gain_crossover_frequency, phase_crossover_frequency,
    sensitivity_crossover,
};
use Kind::*;

pub const KINDS: [Kind; 3] = [Bode, Sensitivity, Curve];
pub const REGISTERS: usize = 4;
/// As many readings a part may have.
const PART: usize = MAX_POINTS as usize;
/// As many readings a book may have.
const ROOM: usize = 10_000;

/// As many lists as its kind has.
pub type Lists = Vec<Vec<f64>>;

/// What a feed is handed. Before a list that is not empty stand `pad` more copies of its first
/// element.
#[derive(Clone)]
pub struct Part {
    pad: usize,
    lists: Lists,
}

impl Part {
    pub fn whole_lists(&self) -> Lists {
        let whole = |list: &Vec<f64>| {
            let first = list.iter().take(1).cycle();
            first.take(self.pad).chain(list).copied().collect()
        };
        self.lists.iter().map(whole).collect()
    }
}

#[derive(Clone)]
pub enum Call {
    Empty(usize),
    Feed(usize, Part),
    /// The second register's readings behind those of the first.
    Join(usize, usize),
}

pub struct Case {
    pub kind: Kind,
    pub calls: Vec<Call>,
}

/// What the calls say of a register: the readings of the parts not refused, and whether a join is
/// among its calls.
#[derive(Clone)]
pub struct Book {
    lists: Lists,
    joined: bool,
}

impl Book {
    fn empty(kind: Kind) -> Self {
        Self {
            lists: vec![Vec::new(); kind.lists()],
            joined: false,
        }
    }

    fn append(&mut self, lists: &Lists) {
        for (list, more) in self.lists.iter_mut().zip(lists) {
            list.extend(more);
        }
    }

    pub fn len(&self) -> usize {
        self.lists[0].len()
    }
}

/// The books of all registers.
pub struct Books(pub [Book; REGISTERS]);

impl Books {
    pub fn new(kind: Kind) -> Self {
        Self([(); REGISTERS].map(|_| Book::empty(kind)))
    }

    pub fn enter(&mut self, kind: Kind, call: &Call) {
        match call {
            Call::Empty(at) => self.0[*at] = Book::empty(kind),
            Call::Feed(at, part) => {
                let lists = part.whole_lists();
                if refusal(&lists).is_none() {
                    self.0[*at].append(&lists);
                }
            }
            Call::Join(at, other) => {
                let other = self.0[*other].lists.clone();
                self.0[*at].append(&other);
                self.0[*at].joined = true;
            }
        }
    }
}

pub fn vectors() -> Words {
    let random = &mut Random::new(6);
    let mut cases = Vec::new();
    for kind in KINDS {
        cases.extend(smallest(kind));
        cases.extend((0..220).map(|_| fed(kind, random)));
        cases.extend((0..260).map(|_| bracketed(kind, random)));
        cases.extend((0..18).flat_map(|_| met(kind, random)));
        cases.extend(single_readings(kind, random));
        cases.extend((0..60).map(|turn| doubled(kind, random, turn)));
        cases.extend((0..24).map(|turn| long(kind, random, turn)));
        cases.extend((0..300).map(|_| mixed(kind, random)));
    }
    for kind in KINDS {
        cases.extend(worked(kind));
    }

    let mut words = Words::default();
    for case in &cases {
        write(&mut words, case);
    }

    words.wrong_on_purpose(|words| {
        for kind in KINDS {
            write(words, &with_refused_parts(kind));
        }
    });
    // A kind that there is not, with calls that there are not, and a feed.
    for no_kind in [0, 4] {
        for word in [no_kind, 3, 0, 0, 4, 0, 2, 0, 1, 1, 1, 0] {
            words.word(word);
        }
        words.arguments(&[1.0; 3]);
        words.wrong_as_it_stands();
    }
    words
}

/// Rows for the prover.
pub fn rows(rows: &mut Rows, random: &mut Random) {
    rows.table(
        "summaries",
        "sweeps that come in parts, refused ones among them; fed, and joined in some bracketing",
    );
    for kind in KINDS {
        for joined in [false, true, true] {
            let case = loop {
                let lists = swung(kind, random, 6);
                let mut calls = Vec::new();
                if joined {
                    build(kind, random, 0, 3, &lists, &mut calls);
                } else {
                    feed_all(kind, random, 0, &lists, &mut calls);
                }
                let joins = calls.iter().any(|call| matches!(call, Call::Join(..)));
                if joins == joined && few_parts(&calls) {
                    break Case { kind, calls };
                }
            };
            row(rows, &case);
        }
    }
}

/// Rising frequencies, and values on both sides of what is crossed.
fn swung(kind: Kind, random: &mut Random, n: usize) -> Lists {
    let [rising, swinging] = [FREQUENCIES[0], LEVELS[4]];
    let centres = match kind {
        Bode => vec![0.0, HALF_TURN],
        Sensitivity => vec![0.0, 0.0],
        Curve => vec![-1.0, 0.0],
    };
    let mut lists = match kind {
        Bode | Sensitivity => vec![rising(random, n, 0.0)],
        Curve => Vec::new(),
    };
    lists.extend(centres.iter().map(|&centre| swinging(random, n, centre)));
    lists
}

/// Whether the parts are few, none too long to be written out, and one is refused.
fn few_parts(calls: &[Call]) -> bool {
    let parts = calls.iter().filter_map(|call| match call {
        Call::Feed(_, part) => Some(part),
        _ => None,
    });
    let parts: Vec<_> = parts.collect();
    parts.len() <= 6
        && parts.iter().all(|part| part.pad == 0)
        && parts.iter().any(|part| refusal(&part.lists).is_some())
}

fn row(rows: &mut Rows, case: &Case) {
    let mut texts = [(); REGISTERS].map(|_| String::from("start"));
    let mut books = Books::new(case.kind);
    for call in &case.calls {
        match call {
            Call::Empty(at) => texts[*at] = String::from("start"),
            Call::Feed(at, part) => {
                let part = name(rows, case.kind, part.pad, &part.lists);
                texts[*at] = format!("(feed {} {part})", texts[*at]);
            }
            Call::Join(at, other) => {
                texts[*at] = format!("(join {} {})", texts[*at], texts[*other]);
            }
        }
        books.enter(case.kind, call);
    }
    let questions: &[&str] = match case.kind {
        Bode => &["gain_of_summary", "phase_of_summary"],
        Sensitivity => &["crossover_of_summary", "bandwidth_of_summary"],
        Curve => &["approach_of_summary"],
    };
    for (question, answer) in questions.iter().zip(answers(case.kind, &books.0[0])) {
        let value: Vec<_> = answer.ok().flatten().into_iter().collect();
        rows.row(&format!("{question} {}", texts[0]), number(answer), &value);
    }
}

fn write(words: &mut Words, case: &Case) {
    words.word(case.kind as u64);
    words.word(case.calls.len() as u64);
    let mut books = Books::new(case.kind);
    for call in &case.calls {
        write_call(words, call);
        books.enter(case.kind, call);
    }
    let answers = answers(case.kind, &books.0[0]);
    for &answer in &answers {
        let value = answer.ok().flatten().unwrap_or(0.0);
        match case.kind {
            Bode | Sensitivity => words.answer(number(answer), &[value]),
            // A closest approach is a value, always.
            Curve => words.values(&[value]),
        }
    }
    let numbers: Vec<_> = answers
        .iter()
        .map(|&answer| number(answer).to_string())
        .collect();
    words.count(format!("{:?}: {}", case.kind, numbers.join(" ")));
}

fn write_call(words: &mut Words, call: &Call) {
    match call {
        Call::Empty(at) => {
            words.word(1);
            words.word(*at as u64);
        }
        Call::Feed(at, part) => {
            words.word(2);
            words.word(*at as u64);
            for list in &part.lists {
                words.word(list.len() as u64);
            }
            words.word(part.pad as u64);
            for list in &part.lists {
                words.arguments(list);
            }
            words.answer(refusal(&part.whole_lists()).unwrap_or(VALUE), &[]);
        }
        Call::Join(at, other) => {
            words.word(3);
            words.word(*at as u64);
            words.word(*other as u64);
        }
    }
}

/// What the Rust answers on the book's list. Only a bandwidth is not kept, where the book has a
/// join.
pub fn answers(kind: Kind, book: &Book) -> Vec<Answer> {
    match book.len() {
        0..=SHORT => answers_in::<SHORT>(kind, book),
        0..=PART => answers_in::<PART>(kind, book),
        _ => answers_in::<ROOM>(kind, book),
    }
}

fn answers_in<const N: usize>(kind: Kind, book: &Book) -> Vec<Answer> {
    let lists = &book.lists;
    match kind {
        Bode => {
            let data = bode_data::<N>([&lists[0], &lists[1], &lists[2]]);
            vec![
                Ok(gain_crossover_frequency(&data)),
                Ok(phase_crossover_frequency(&data)),
            ]
        }
        Sensitivity => {
            let data = sensitivity_data::<N>([&lists[0], &lists[1], &lists[2]]);
            let kept = if book.joined {
                Err(NOT_KEPT)
            } else {
                Ok(bandwidth(&data))
            };
            vec![Ok(sensitivity_crossover(&data)), kept]
        }
        Curve => {
            let data = nyquist_data::<N>([&lists[0], &lists[1]]);
            vec![Ok(Some(distance_to_critical(&data)))]
        }
    }
}

/// Document 01's worked sweeps, and the smallest ones that show a rule, cut at every place.
fn worked(kind: Kind) -> Vec<Case> {
    let mut cases = Vec::new();
    for lists in worked_lists(kind) {
        let n = lists[0].len();
        for cut in 0..=n {
            let feed = |at: usize, start: usize, end: usize| {
                let part = slice(&lists, start, end);
                Call::Feed(at, part)
            };
            for calls in [
                vec![feed(0, 0, cut), feed(0, cut, n)],
                vec![feed(0, 0, cut), feed(1, cut, n), Call::Join(0, 1)],
            ] {
                cases.push(Case { kind, calls });
            }
        }
    }
    cases
}

/// Readings in the styles of the scans.
fn drawn(kind: Kind, random: &mut Random, n: usize) -> Lists {
    let levels = random.pick(&LEVELS);
    let any = random.pick(&LEVELS);
    let others = random.pick(&[levels, LEVELS[0], any]);
    // Half of the sweeps have frequencies as a real one.
    let frequencies = [FREQUENCIES[0], random.pick(&FREQUENCIES)];
    let frequencies = random.pick(&frequencies);
    let parts = random.pick(&PARTS);
    let styles: &[(Style, f64)] = match kind {
        Bode => &[(frequencies, 5.0), (levels, 0.0), (others, HALF_TURN)],
        Sensitivity => &[(frequencies, 5.0), (levels, 0.0), (others, 0.0)],
        Curve => &[(parts, -1.0), (parts, 0.0)],
    };
    styles
        .iter()
        .map(|(style, centre)| style(random, n, *centre))
        .collect()
}

/// The readings from `start` to `end`.
fn slice(lists: &Lists, start: usize, end: usize) -> Part {
    Part {
        pad: 0,
        lists: lists.iter().map(|list| list[start..end].to_vec()).collect(),
    }
}

fn all(lists: &Lists) -> Part {
    slice(lists, 0, lists[0].len())
}

/// A part that is refused: one list is longer or shorter by one, or there are too many readings, or both.
fn refused(kind: Kind, random: &mut Random) -> Part {
    let n = random.below(4) as usize;
    let mut lists = drawn(kind, random, n + 1);
    let pad = random.pick(&[0, 0, PART - n, 4900]);
    if pad == 0 || random.below(3) == 0 {
        let at = random.below(kind.lists() as u64) as usize;
        if random.below(2) == 0 {
            lists[at].pop();
        } else {
            let last = lists[at][n];
            lists[at].push(last);
        }
    }
    let part = Part { pad, lists };
    assert!(refusal(&part.whole_lists()).is_some());
    part
}

/// Feeds all readings, cut at random, with parts of 0 and 1 readings and refused ones among them.
fn feed_all(kind: Kind, random: &mut Random, at: usize, lists: &Lists, calls: &mut Vec<Call>) {
    let n = lists[0].len();
    let longest = random.pick(&[1, 2, 5, n as u64]);
    let mut start = 0;
    loop {
        if random.below(6) == 0 {
            calls.push(Call::Feed(at, refused(kind, random)));
        }
        let end = n.min(start + random.below(longest + 1) as usize);
        calls.push(Call::Feed(at, slice(lists, start, end)));
        start = end;
        if start == n && random.below(3) > 0 {
            break;
        }
    }
}

/// Makes a register have all readings, by feeds and by joins of what it has and what later
/// registers have; of these at most `depth` stand inside each other.
fn build(
    kind: Kind,
    random: &mut Random,
    at: usize,
    depth: usize,
    lists: &Lists,
    calls: &mut Vec<Call>,
) {
    if depth == 0 || at + 1 == REGISTERS || random.below(5) == 0 {
        calls.push(Call::Empty(at));
        feed_all(kind, random, at, lists, calls);
        return;
    }
    let n = lists[0].len();
    let cut = random.below(n as u64 + 1) as usize;
    let [start, rest] = [slice(lists, 0, cut), slice(lists, cut, n)];
    build(kind, random, at, depth - 1, &start.lists, calls);
    build(kind, random, at + 1, depth - 1, &rest.lists, calls);
    calls.push(Call::Join(at, at + 1));
}

/// One register that is fed.
pub fn fed(kind: Kind, random: &mut Random) -> Case {
    let n = length(random);
    let lists = drawn(kind, random, n);
    let mut calls = Vec::new();
    feed_all(kind, random, 0, &lists, &mut calls);
    Case { kind, calls }
}

/// Joins in any bracketing.
pub fn bracketed(kind: Kind, random: &mut Random) -> Case {
    let n = length(random);
    let lists = drawn(kind, random, n);
    let mut calls = Vec::new();
    let depth = 1 + random.below(5) as usize;
    build(kind, random, 0, depth, &lists, &mut calls);
    Case { kind, calls }
}

/// Every way to put `second` behind `first`: fed, joined, with an empty one or a refused part
/// between.
fn ways(kind: Kind, random: &mut Random, first: &Lists, second: &Lists) -> Vec<Vec<Call>> {
    let feed = |at: usize, lists: &Lists| Call::Feed(at, all(lists));
    let nothing = vec![Vec::new(); kind.lists()];
    vec![
        vec![feed(0, first), feed(0, second)],
        vec![
            feed(0, first),
            feed(0, &nothing),
            Call::Feed(0, refused(kind, random)),
            feed(0, second),
        ],
        vec![feed(0, first), feed(1, second), Call::Join(0, 1)],
        vec![
            feed(1, first),
            feed(2, second),
            Call::Join(1, 2),
            Call::Join(0, 1),
        ],
        vec![
            feed(0, first),
            feed(3, second),
            Call::Join(0, 1),
            Call::Join(2, 3),
            Call::Join(0, 2),
        ],
        vec![feed(1, first), Call::Join(0, 1), feed(0, second)],
        // What a register had before it was made empty is gone.
        vec![
            feed(0, second),
            Call::Join(0, 0),
            Call::Empty(0),
            feed(0, first),
            feed(0, second),
        ],
    ]
}

/// The crossing lies where the parts meet, and no part has it.
pub fn met(kind: Kind, random: &mut Random) -> Vec<Case> {
    let [m, n] = [(); 2].map(|_| 1 + random.below(5) as usize);
    let (first, second) = match kind {
        Bode | Sensitivity => two_sides(kind, random, m, n),
        Curve => (drawn(kind, random, m), drawn(kind, random, n)),
    };
    let ways = ways(kind, random, &first, &second);
    ways.into_iter().map(|calls| Case { kind, calls }).collect()
}

/// Two sweeps whose levels lie on different sides. In a sweep of S and T, T also falls by 3 dB
/// between them.
fn two_sides(kind: Kind, random: &mut Random, m: usize, n: usize) -> (Lists, Lists) {
    let omega = FREQUENCIES[0](random, m + n, 0.0);
    let side = random.pick(&[-1.0, 1.0]);
    let mut levels = |n: usize, centre: f64, side: f64| -> Vec<f64> {
        (0..n)
            .map(|_| centre + side * random.between(0.001, 20.0))
            .collect()
    };
    let level = |t: &[f64]| t[0] - 3.0;
    let (first, second) = match kind {
        Bode => (
            [levels(m, 0.0, side), levels(m, HALF_TURN, -side)],
            [levels(n, 0.0, -side), levels(n, HALF_TURN, side)],
        ),
        _ => {
            let mut t = levels(m, 0.0, 1.0);
            let least = level(&t);
            for value in &mut t[1..] {
                *value += least;
            }
            let below = levels(n, least, -1.0);
            let s: Vec<_> = t.iter().map(|t| t - 40.0).collect();
            let above: Vec<_> = below.iter().map(|t| t + 7.0).collect();
            ([s, t], [above, below])
        }
    };
    let [a, b] = first;
    let [c, d] = second;
    (
        vec![omega[..m].to_vec(), a, b],
        vec![omega[m..].to_vec(), c, d],
    )
}

/// Two readings, each a part, with values at what is crossed and next to it.
pub fn single_readings(kind: Kind, random: &mut Random) -> Vec<Case> {
    let about = |centre: f64| {
        [
            centre,
            next_below(centre),
            next_above(centre),
            centre - 1.0,
            centre + 1.0,
        ]
    };
    let mut cases = Vec::new();
    for first in about(0.0) {
        for second in about(0.0) {
            let phases = [(); 2].map(|_| random.pick(&about(HALF_TURN)));
            let zeros = [(); 2].map(|_| random.pick(&[0.0, -0.0]));
            let omegas = random.pick(&[[1.0, 2.0], [2.0, 1.0], [2.0, 2.0], [-0.0, 1.0]]);
            let one = |i: usize, level: f64| -> Lists {
                match kind {
                    Bode => vec![vec![omegas[i]], vec![level], vec![phases[i]]],
                    Sensitivity => vec![vec![omegas[i]], vec![level], vec![zeros[i]]],
                    Curve => vec![vec![level - 1.0], vec![zeros[i]]],
                }
            };
            let mut ways = ways(kind, random, &one(0, first), &one(1, second));
            let at = random.below(ways.len() as u64) as usize;
            cases.push(Case {
                kind,
                calls: ways.swap_remove(at),
            });
        }
    }
    cases
}

/// Registers joined with themselves: the last reading and the first become neighbours.
pub fn doubled(kind: Kind, random: &mut Random, turn: u64) -> Case {
    let n = random.below(6) as usize;
    let lists = drawn(kind, random, n);
    let at = random.below(2) as usize;
    let mut calls = Vec::new();
    feed_all(kind, random, at, &lists, &mut calls);
    for _ in 0..1 + turn % 3 {
        calls.push(Call::Join(at, at));
    }
    if at > 0 {
        calls.push(Call::Join(0, at));
    }
    if turn % 2 == 0 {
        let more = drawn(kind, random, n);
        calls.push(Call::Feed(0, all(&more)));
    }
    Case { kind, calls }
}

/// Books of more readings than a part may have.
pub fn long(kind: Kind, random: &mut Random, turn: u64) -> Case {
    // Before what is drawn a reading is repeated; above all one that crosses nothing by itself.
    let quiet = match kind {
        Bode => [0.01, 30.0, -100.0],
        Sensitivity => [0.01, -30.0, 0.0],
        Curve => [3.0, 2.0, 0.0],
    };
    let mut part = |total: usize| {
        let mut lists = drawn(kind, random, 4);
        if turn % 4 > 0 {
            for (list, first) in lists.iter_mut().zip(quiet) {
                list[0] = first;
            }
        }
        let pad = total - 4;
        Part { pad, lists }
    };
    let [a, b] = [part(PART), part(PART)];
    let few = part(1500);
    let more = part(4);
    let calls = match turn % 3 {
        0 => vec![
            Call::Feed(0, a),
            Call::Feed(0, few),
            Call::Feed(0, b),
            Call::Feed(0, more),
        ],
        1 => vec![
            Call::Feed(1, a),
            Call::Feed(2, b),
            Call::Join(1, 2),
            Call::Feed(0, more),
            Call::Join(0, 1),
            Call::Feed(0, few),
        ],
        _ => vec![
            Call::Feed(2, a),
            Call::Join(2, 2),
            Call::Join(0, 2),
            Call::Feed(0, few),
            Call::Feed(0, more),
        ],
    };
    Case { kind, calls }
}

/// Any calls on any registers.
pub fn mixed(kind: Kind, random: &mut Random) -> Case {
    let mut calls = Vec::new();
    let mut books = Books::new(kind);
    for _ in 0..4 + random.below(12) {
        let [at, other] = [(); 2].map(|_| random.below(REGISTERS as u64) as usize);
        let call = match random.below(12) {
            0 => Call::Empty(at),
            1 => Call::Feed(at, refused(kind, random)),
            2..=6 => {
                let n = random.below(4) as usize;
                Call::Feed(at, all(&drawn(kind, random, n)))
            }
            _ => Call::Join(at, other),
        };
        if let Call::Join(..) = call {
            if books.0[at].len() + books.0[other].len() > PART {
                continue;
            }
        }
        books.enter(kind, &call);
        calls.push(call);
    }
    // Only register 0 is asked: often it is to have what another one has.
    if random.below(2) == 0 {
        calls.push(Call::Join(0, 1 + random.below(3) as usize));
    }
    Case { kind, calls }
}

/// Each refusal of a part, and both at once.
fn with_refused_parts(kind: Kind) -> Case {
    let feed = |pad: usize, longer: usize| {
        let mut lists = vec![vec![1.0]; kind.lists()];
        lists[0].extend(vec![2.0; longer]);
        Call::Feed(0, Part { pad, lists })
    };
    let calls = vec![feed(0, 1), feed(PART, 0), feed(PART, 1), feed(0, 0)];
    Case { kind, calls }
}

/// No call; no reading; a bandwidth that is kept, that is not, and that is kept again.
fn smallest(kind: Kind) -> Vec<Case> {
    let nothing = Part {
        pad: 0,
        lists: vec![Vec::new(); kind.lists()],
    };
    let some = Part {
        pad: 0,
        lists: match kind {
            Bode => vec![vec![1.0, 2.0], vec![1.0, -1.0], vec![-170.0, -190.0]],
            Sensitivity => vec![vec![1.0, 2.0], vec![-9.0, 1.0], vec![0.0, -4.0]],
            Curve => vec![vec![0.0, -1.0], vec![0.0, 0.5]],
        },
    };
    let feed = |at: usize| Call::Feed(at, some.clone());
    let calls = [
        vec![],
        vec![Call::Empty(0)],
        vec![Call::Feed(0, nothing.clone())],
        vec![Call::Join(0, 1)],
        vec![Call::Join(0, 0)],
        vec![feed(0)],
        vec![feed(0), Call::Join(1, 0)],
        vec![feed(0), Call::Join(0, 1)],
        vec![feed(1), Call::Join(0, 1)],
        vec![Call::Feed(0, nothing.clone()), feed(0)],
        vec![Call::Join(0, 1), feed(0)],
        vec![feed(0), Call::Join(0, 1), Call::Empty(0), feed(0)],
        vec![feed(0), Call::Empty(0)],
    ];
    calls.map(|calls| Case { kind, calls }).into()
}
