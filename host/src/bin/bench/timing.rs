//! Rows of a table, each a call of the port and one of another side, timed in rounds that alternate.

use std::hint::black_box;
use std::time::{Duration, Instant};

/// A call, with its answer as bits.
type Call<'a> = Box<dyn FnMut() -> u64 + 'a>;

/// The largest ratio that is aimed at, where nothing else is said.
pub const TARGET: f64 = 1.0;

/// As long one side of a round takes, at least.
const ROUND: Duration = Duration::from_micros(40);
/// A row that takes longer than this in a round is timed in fewer rounds.
const LONG: f64 = 200e-6;
/// The least and the greatest number of rounds of a row.
const ROUNDS: [usize; 2] = [41, 1001];

/// One side of a row.
struct Side<'a> {
    call: Call<'a>,
    /// Seconds a call, for each round.
    times: Vec<f64>,
}

impl<'a> Side<'a> {
    fn new(call: impl FnMut() -> u64 + 'a) -> Self {
        Self {
            call: Box::new(call),
            times: Vec::new(),
        }
    }

    fn time(&mut self, calls: usize) -> Duration {
        let start = Instant::now();
        for _ in 0..calls {
            black_box((self.call)());
        }
        start.elapsed()
    }

    fn round(&mut self, calls: usize) {
        let time = self.time(calls).as_secs_f64();
        self.times.push(time / calls as f64);
    }
}

pub struct Row<'a> {
    function: &'static str,
    case: String,
    /// What its times are divided by.
    parts: usize,
    port: Side<'a>,
    other: Option<Side<'a>>,
    /// Calls of each side in a round.
    calls: usize,
    /// It has a part in one of so many rounds.
    every: usize,
}

impl<'a> Row<'a> {
    /// Both sides must give the same answer.
    pub fn new(
        function: &'static str,
        case: impl Into<String>,
        parts: usize,
        port: impl FnMut() -> u64 + 'a,
        other: impl FnMut() -> u64 + 'a,
    ) -> Self {
        let case = case.into();
        let [mut port, mut other] = [Side::new(port), Side::new(other)];
        let [ours, theirs] = [(port.call)(), (other.call)()];
        assert_eq!(ours, theirs, "the answers differ: {function}, {case}");
        Self::of(function, case, parts, port, Some(other))
    }

    /// Without another side.
    pub fn alone(
        function: &'static str,
        case: impl Into<String>,
        parts: usize,
        port: impl FnMut() -> u64 + 'a,
    ) -> Self {
        Self::of(function, case.into(), parts, Side::new(port), None)
    }

    fn of(
        function: &'static str,
        case: String,
        parts: usize,
        mut port: Side<'a>,
        other: Option<Side<'a>>,
    ) -> Self {
        let mut calls = 1;
        while port.time(calls) < ROUND {
            calls *= 2;
        }
        let time = port.time(calls).as_secs_f64();
        let most = ROUNDS[1] / ROUNDS[0];
        Self {
            function,
            case,
            parts,
            port,
            other,
            calls,
            every: ((time / LONG) as usize).clamp(1, most),
        }
    }

    fn round(&mut self) {
        self.port.round(self.calls);
        if let Some(other) = &mut self.other {
            other.round(self.calls);
        }
    }

    fn print(&self, target: f64) {
        let nanoseconds = |side: &Side| 1e9 * median(side.times.clone()) / self.parts as f64;
        let Row { function, case, .. } = self;
        print!("| `{function}` | {case} | {:.3} |", nanoseconds(&self.port));
        match &self.other {
            Some(other) => {
                let pairs = self.port.times.iter().zip(&other.times);
                let ratio = median(pairs.map(|(port, other)| port / other).collect());
                let hundredths = |ratio: f64| (100.0 * ratio).round();
                let over = hundredths(ratio) > hundredths(target);
                let above = if over { " (above)" } else { "" };
                println!(" {:.3} | {ratio:.2}{above} |", nanoseconds(other));
            }
            None => println!(),
        }
    }
}

/// Rows with the same other side.
pub struct Table<'a> {
    pub title: &'static str,
    /// What the nanoseconds are of.
    pub of: &'static str,
    /// The other side, and the largest ratio that is aimed at.
    pub other: Option<(&'static str, f64)>,
    pub rows: Vec<Row<'a>>,
}

impl Table<'_> {
    fn print(&self) {
        println!("\n{}\n", self.title);
        match self.other {
            Some((other, _)) => {
                println!(
                    "| function | case | port, ns {} | {other} | ratio |",
                    self.of
                );
                println!("|---|---|---|---|---|");
            }
            None => {
                println!("| function | case | ns {} |", self.of);
                println!("|---|---|---|");
            }
        }
        let target = self.other.map_or(0.0, |(_, target)| target);
        self.rows.iter().for_each(|row| row.print(target));
    }
}

/// Times all rows, in rounds that go through all tables, and prints them.
pub fn run(mut tables: Vec<Table>) {
    for round in 0..ROUNDS[1] {
        let rows = tables.iter_mut().flat_map(|table| &mut table.rows);
        rows.filter(|row| round % row.every == 0)
            .for_each(Row::round);
    }
    tables.iter().for_each(Table::print);
}

/// Numbers as one, by their bits.
pub fn fold(all: u64, number: f64) -> u64 {
    all.rotate_left(1) ^ number.to_bits()
}

pub fn folded(numbers: impl IntoIterator<Item = f64>) -> u64 {
    numbers.into_iter().fold(0, fold)
}

fn median(mut times: Vec<f64>) -> f64 {
    times.sort_by(f64::total_cmp);
    times[times.len() / 2]
}
