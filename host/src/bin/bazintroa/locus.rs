//! `locus LOOP.txt`: the poles of the closed loop by gain.

use std::fmt::Write;
use std::io::{self, IsTerminal};
use std::time::Instant;

use bazintroa::{
    fill_gain_grid, locus_point, stability_region, Complex, Ending, LocusPoint, LoopShaping,
    Refusal, TransferFn,
};

use crate::arguments::{Arguments, Command, FILE};
use crate::json::Json;
use crate::output::{Failure, Output};
use crate::progress::Progress;
use crate::sweep::LIMIT;
use crate::words::{count, counted, listed, number, refused};
use crate::{locus_plot, loop_file, multiplied_out};

pub const COMMAND: Command = Command {
    name: "locus",
    help: &[
        "\
bazintroa locus LOOP.txt --k-max K [--points N] [--pole-at-0] [--svg FILE] [--json]

The poles of the closed loop for gains from 0 to K in even steps, and the first of these gains at
which a pole is not inside the unit circle. Gain 1 is the loop as the file has it.

",
        loop_file::FORM,
        "
Plant and controller are multiplied out; the order of the product is at most 8. Where its numerator
has as high a power of 1/z as its denominator, the polynomial has one pole more than the loop, at 0.
A polynomial of degree 3 is refused, with 12.

",
        ENDINGS,
        "
Of poles that are spent or off the table says inside or not inside with these words behind. The runs
of gains at which all poles are inside, in JSON stable_gains, leave out what is spent or off; the
first gain at which a pole is not inside does not. In the picture poles that are not settled, or
off, have a mark of their own and are on no curve, and the legend says at how many gains there are
such. What is NaN is not drawn.

  --k-max K    the largest gain, above 0
  --points N   the number of gains, 2 to 4,096 (101)
  --pole-at-0  multiply the polynomial by z: it has one pole more, at 0, and degree 3 becomes 4
  --svg FILE   write the locus with the unit circle
  --json       print JSON, as in bazintroa margins

Example:
  bazintroa locus examples/steady/loop.txt --k-max 8 --svg steady.svg
",
    ],
    file: "LOOP.txt",
    options: &[
        ("--k-max", "number"),
        ("--points", "whole number"),
        ("--pole-at-0", ""),
        ("--svg", FILE),
        ("--json", ""),
    ],
    run,
};

/// What there is to know of poles, for the help of the commands that show them.
pub const ENDINGS: &str = "\
One pole or two come from formulas, more from a search of at most 200 rounds. It ends
  settled  with a round that moves no pole by 1e-12 or more, or
  spent    when the last round still did: the poles were still moving, by the number that is given.
Poles are
  broken   where a part of one is NaN: whether the loop is stable is then not known, and
  off      where they do not give the polynomial back. Settled does not mean right: two poles that
           meet stay where they met. So the poles are multiplied out, (z - p1)(z - p2).., and
           compared with the polynomial. The number that is given is the most by which they miss
           a coefficient, in parts of its scale, which is the same coefficient of
           (z + |p1|)(z + |p2|).., or 1 where that is less. Above 0.001 they are off. Five poles or
           more in one place are so too: the search leaves them in a ring about it.
JSON has ending (settled, spent or broken), the rounds of a settled search, the last_change of a
spent one, and gives_polynomial_back, which is false for poles that are off.
";

/// The poles at one gain, or why there are none.
pub enum Poles {
    Found(Found),
    Refused(Refusal),
    /// Why plant times controller could not be multiplied out.
    NoProduct(String),
}

impl Poles {
    pub fn found(&self) -> Option<&Found> {
        match self {
            Poles::Found(found) => Some(found),
            _ => None,
        }
    }

    /// Whether all lie inside the unit circle, where that is known.
    pub fn stable(&self) -> Option<bool> {
        self.found().and_then(Found::stable)
    }

    pub fn fields(&self) -> Vec<(&'static str, Json)> {
        let refusal = match self {
            Poles::Refused(refusal) => Json::Count(refusal.number() as usize),
            _ => Json::Null,
        };
        let truth = |value: Option<bool>| value.map_or(Json::Null, Json::Bool);
        let word = |text: &str| Json::Text(text.into());
        let found = self.found();
        let (ending, rounds, change) = match found.map(|found| found.point.ending) {
            None => (Json::Null, Json::Null, Json::Null),
            Some(Ending::Settled(rounds)) => (word("settled"), Json::Count(rounds), Json::Null),
            Some(Ending::Spent(change)) => (word("spent"), Json::Null, Json::Number(change)),
            Some(Ending::Broken) => (word("broken"), Json::Null, Json::Null),
        };
        let pair = |pole: &Complex| Json::numbers(&[pole.re, pole.im]);
        let poles = found.map(|found| found.poles().iter().map(pair).collect());
        vec![
            ("stable", truth(self.stable())),
            ("refused", refusal),
            ("ending", ending),
            ("rounds", rounds),
            ("last_change", change),
            (
                "gives_polynomial_back",
                truth(found.and_then(Found::gives_back)),
            ),
            ("poles", poles.map_or(Json::Null, Json::List)),
        ]
    }
}

/// The poles at one gain, as the library gives them, and what is known of them.
pub struct Found {
    point: LocusPoint,
    /// By how much they miss the polynomial.
    miss: f64,
}

impl Found {
    fn of(tf: &TransferFn, point: LocusPoint) -> Self {
        let polynomial = multiplied_out::loop_polynomial(tf, point.gain);
        let miss = multiplied_out::miss(&polynomial, &point.poles[..point.count]);
        Found { point, miss }
    }

    pub fn poles(&self) -> &[Complex] {
        &self.point.poles[..self.point.count]
    }

    pub fn is_broken(&self) -> bool {
        self.point.ending == Ending::Broken
    }

    /// By how much the last round moved a pole, where the search was spent.
    pub fn spent(&self) -> Option<f64> {
        match self.point.ending {
            Ending::Spent(change) => Some(change),
            _ => None,
        }
    }

    /// By how much they miss the polynomial, where they do not give it back.
    pub fn off(&self) -> Option<f64> {
        (self.gives_back() == Some(false)).then_some(self.miss)
    }

    /// Whether they give the polynomial back. Of broken ones nothing is said.
    fn gives_back(&self) -> Option<bool> {
        (!self.is_broken()).then(|| multiplied_out::gives_back(self.miss))
    }

    /// Whether the search settled, and they give the polynomial back.
    pub fn is_sound(&self) -> bool {
        matches!(self.point.ending, Ending::Settled(_)) && self.off().is_none()
    }

    /// Whether all lie inside the unit circle, where that is known. To the library a NaN is inside.
    pub fn stable(&self) -> Option<bool> {
        (!self.is_broken()).then(|| stability_region(&self.point.poles, self.point.count))
    }

    /// The largest distance of a pole from 0, a NaN where a pole is one.
    pub fn outermost(&self) -> f64 {
        if self.is_broken() {
            return f64::NAN;
        }
        let distances = self.poles().iter().map(|pole| pole.magnitude());
        distances.fold(0.0, f64::max)
    }

    /// What is to be remarked, each behind a comma.
    fn remarks(&self) -> String {
        let mut text = String::new();
        if self.is_broken() {
            text.push_str(", broken");
        }
        if let Some(change) = self.spent() {
            let _ = write!(text, ", spent {}", number(change, 3));
        }
        match self.off() {
            Some(miss) if miss.is_finite() => {
                let _ = write!(text, ", off {}", number(miss, 3));
            }
            Some(_) => text.push_str(", off"),
            None => {}
        }
        text
    }
}

/// The poles of the loop as it is written, and whether the polynomial was multiplied by z: where it
/// is of degree 3, which is refused, it is asked for again with one pole more, at 0.
pub fn at_gain_1(shaping: &LoopShaping) -> (Poles, bool) {
    let mut tf = match loop_file::open_loop(shaping) {
        Err(why) => return (Poles::NoProduct(why), false),
        Ok(tf) => tf,
    };
    match point(&tf, 1.0, 2, 1) {
        Poles::Refused(Refusal::CubicLeftOut) if tf.order < 8 => {
            tf.order += 1;
            (point(&tf, 1.0, 2, 1), true)
        }
        poles => (poles, false),
    }
}

fn point(tf: &TransferFn, k_max: f64, n: usize, i: usize) -> Poles {
    match locus_point(tf, k_max, n, i) {
        Ok(point) => Poles::Found(Found::of(tf, point)),
        Err(refusal) => Poles::Refused(refusal),
    }
}

fn run(arguments: &Arguments) -> Result<Output, Failure> {
    let name = arguments.file_name();
    let k_max = arguments
        .number("--k-max")?
        .ok_or("locus needs --k-max, the largest gain".to_string())?;
    let n = arguments.count("--points")?.unwrap_or(101);
    let shaping =
        loop_file::parse(&arguments.read()?).map_err(|wrong| format!("{name}: {wrong}"))?;
    let mut tf = loop_file::open_loop(&shaping).map_err(|why| format!("{name}: {why}"))?;
    // The polynomial has a pole at 0 that the loop has not where b reaches the order and a does not.
    let mut added = usize::from(tf.a[tf.order - 1] == 0.0);
    if arguments.has("--pole-at-0") {
        if tf.order == 8 {
            return Err(format!("{name}: the order is 8, and --pole-at-0 would make it 9").into());
        }
        tf.order += 1;
        added += 1;
    }

    let mut gains = vec![0.0; n.min(LIMIT)];
    fill_gain_grid(k_max, n, &mut gains).map_err(|refusal| {
        let why = match refusal {
            // The order, its other cause, is no argument of a grid.
            Refusal::InvalidParameter => "the largest gain is 0 or below".to_string(),
            other => other.to_string(),
        };
        format!(
            "a locus of {} up to {} is refused with {}: {why}",
            counted(n, "point"),
            number(k_max, 6),
            refusal.number()
        )
    })?;
    let terminal = Some(io::stderr()).filter(IsTerminal::is_terminal);
    let mut progress = Progress::new(terminal, Instant::now());
    let mut locus = Vec::with_capacity(n);
    for i in 0..n {
        locus.push(point(&tf, k_max, n, i));
        progress.show(i + 1, n, Instant::now());
    }
    progress.end();

    // Degree 3 may come at some gains alone. Nothing else can be refused here.
    let all_refused = locus.iter().all(|poles| matches!(poles, Poles::Refused(_)));
    if let (Some(Poles::Refused(refusal)), true) = (locus.first(), all_refused) {
        let way_out = if arguments.has("--pole-at-0") {
            "without --pole-at-0 it is of degree 2"
        } else {
            "--pole-at-0 makes it degree 4"
        };
        return Err(format!(
            "{name}: at gain 0 and at every other the poles are {}; {way_out}",
            refused(*refusal)
        )
        .into());
    }

    let report = Report {
        gains: &gains,
        locus: &locus,
    };
    let mut output = Output::default();
    if let Some(path) = arguments.path("--svg") {
        let picture = locus_plot::page(&name, &gains, &locus, report.left());
        output.files.push((path, picture));
    }
    output.text = if arguments.has("--json") {
        format!("{}\n", report.json(tf.order, added))
    } else {
        let mut text = format!(
            "{name}: plant times controller of order {}, {} from 0 to {}\n\n",
            tf.order,
            counted(n, "gain"),
            number(k_max, 6)
        );
        text.push_str(&report.table());
        text.push('\n');
        for note in report.notes(added) {
            let _ = writeln!(text, "{note}");
        }
        for (path, _) in &output.files {
            let _ = writeln!(text, "The picture is in {}.", path.display());
        }
        text
    };
    Ok(output)
}

struct Report<'a> {
    gains: &'a [f64],
    locus: &'a [Poles],
}

impl Report<'_> {
    fn first_not_inside(&self) -> Option<usize> {
        let mut locus = self.locus.iter();
        locus.position(|poles| poles.stable() == Some(false))
    }

    /// The first gain not inside that follows one with all poles inside, or else the first of all.
    fn left(&self) -> Option<usize> {
        let stable = |i: usize| self.locus[i].stable();
        (1..self.locus.len())
            .find(|&i| stable(i) == Some(false) && stable(i - 1) == Some(true))
            .or(self.first_not_inside())
    }

    /// The first and the last place of each run of gains at which all poles are inside, with nothing to
    /// be remarked on them.
    fn stable_runs(&self) -> Vec<(usize, usize)> {
        let mut runs: Vec<(usize, usize)> = Vec::new();
        for (i, poles) in self.locus.iter().enumerate() {
            if poles.stable() == Some(true) && poles.found().is_some_and(Found::is_sound) {
                match runs.last_mut() {
                    Some(run) if run.1 + 1 == i => run.1 = i,
                    _ => runs.push((i, i)),
                }
            }
        }
        runs
    }

    fn json(&self, order: usize, added: usize) -> Json {
        let runs = self.stable_runs().into_iter();
        let runs = runs.map(|(i, j)| Json::numbers(&[self.gains[i], self.gains[j]]));
        let points = self.gains.iter().zip(self.locus).map(|(gain, poles)| {
            let mut fields = vec![("gain", Json::Number(*gain))];
            fields.extend(poles.fields());
            Json::Object(fields)
        });
        let first = self.first_not_inside().map(|i| self.gains[i]);
        Json::Object(vec![
            ("command", Json::Text("locus".into())),
            ("order", Json::Count(order)),
            ("poles_added_at_0", Json::Count(added)),
            ("first_gain_not_inside", Json::maybe(first)),
            ("stable_gains", Json::List(runs.collect())),
            ("locus", Json::List(points.collect())),
        ])
    }

    fn table(&self) -> String {
        let mut text = format!(
            "  {:<12} {:<12} {:<12} {}\n",
            "gain", "outermost", "poles", ""
        );
        text.truncate(text.trim_end().len());
        text.push('\n');
        let states: Vec<String> = self.locus.iter().map(state).collect();
        let width = states
            .iter()
            .map(|state| state.len() + 2)
            .fold(12, usize::max);
        for ((gain, poles), state) in self.gains.iter().zip(self.locus).zip(states) {
            let (outermost, list) = match poles.found() {
                Some(found) => {
                    let list: Vec<String> = found.poles().iter().map(complex).collect();
                    (number(found.outermost(), 6), list.join(", "))
                }
                None => ("".into(), "degree 3".into()),
            };
            let line = format!(
                "  {:<12} {outermost:<12} {state:<width$} {list}",
                number(*gain, 6)
            );
            let _ = writeln!(text, "{}", line.trim_end());
        }
        text
    }

    /// The places at which the poles have a number of a kind, each with its number.
    fn with(&self, of: fn(&Found) -> Option<f64>) -> Vec<(usize, f64)> {
        let all = self.locus.iter().enumerate();
        all.filter_map(|(i, poles)| Some((i, of(poles.found()?)?)))
            .collect()
    }

    fn notes(&self, added: usize) -> Vec<String> {
        let gain = |i: usize| number(self.gains[i], 6);
        let remarks = |i: usize| self.locus[i].found().map_or("".into(), Found::remarks);
        let mut notes = Vec::new();
        notes.push(match self.first_not_inside() {
            None => "At no gain of this grid is a pole known not to be inside the unit circle.".into(),
            Some(0) => format!(
                "The first gain at which a pole is not inside the unit circle is 0{}, where the poles are the \
                 open loop's.",
                remarks(0)
            ),
            Some(i) => format!(
                "The first gain at which a pole is not inside the unit circle is {}{}; the one before is {}.",
                gain(i),
                remarks(i),
                gain(i - 1)
            ),
        });
        let runs = self.stable_runs();
        let spoken: Vec<String> = runs
            .iter()
            .take(6)
            .map(|&(i, j)| match self.gains.get(j + 1) {
                Some(_) => format!(
                    "from {} to {} (the next is {})",
                    gain(i),
                    gain(j),
                    gain(j + 1)
                ),
                None => format!("from {} to {}", gain(i), gain(j)),
            })
            .collect();
        let inside = match runs.len() {
            0 => "at no gain of this grid are all poles known to be inside.".into(),
            1..=6 => format!("all poles are inside {}.", listed(&spoken)),
            n => format!(
                "all poles are inside in {} runs of gains, first {}.",
                count(n),
                spoken[0]
            ),
        };
        let left_out = |found: &Found| found.stable() == Some(true) && !found.is_sound();
        let some_left_out = self.locus.iter().filter_map(Poles::found).any(left_out);
        notes.push(match some_left_out {
            true => format!("Without the gains whose poles are spent or off, {inside}"),
            false => inside.replacen('a', "A", 1),
        });
        let spent = self.with(Found::spent);
        if let Some(&(first, change)) = spent.first() {
            notes.push(format!(
                "The search is spent at {}, the first {}: the last of its 200 rounds still moved a pole by {}{}. \
                 What is said of such a gain is said of poles that were still moving.",
                counted(spent.len(), "gain"),
                gain(first),
                number(change, 3),
                at_most(&spent)
            ));
        }
        let off = self.with(Found::off);
        if let Some(&(first, miss)) = off.first() {
            notes.push(format!(
                "The poles do not give the polynomial back at {}, the first {}: multiplied out, they {}{}. What \
                 is said of such a gain is said of poles of which some are wrong.",
                counted(off.len(), "gain"),
                gain(first),
                missed(miss),
                at_most(&off)
            ));
        }
        let broken = self.with(|found| found.is_broken().then_some(f64::NAN));
        if let Some(&(first, _)) = broken.first() {
            notes.push(format!(
                "The poles are broken at {}, the first {}: a part of one is NaN, and whether the loop is stable \
                 there is not known.",
                counted(broken.len(), "gain"),
                gain(first)
            ));
        }
        let is_refused = |poles: &Poles| matches!(poles, Poles::Refused(_));
        if let Some(first) = self.locus.iter().position(is_refused) {
            let all = self.locus.iter().filter(|poles| is_refused(poles)).count();
            notes.push(format!(
                "At {}, the first {}, the poles are {}.",
                counted(all, "gain"),
                gain(first),
                refused(Refusal::CubicLeftOut)
            ));
        }
        match added {
            0 => {}
            1 => {
                notes.push("One pole at 0 is not the loop's, and comes with the polynomial.".into())
            }
            n => notes.push(format!(
                "{n} poles at 0 are not the loop's, and come with the polynomial."
            )),
        }
        notes
    }
}

/// What the table says of the poles at a gain.
fn state(poles: &Poles) -> String {
    let Some(found) = poles.found() else {
        return "refused".into();
    };
    let verdict = match found.stable() {
        Some(true) => "inside",
        Some(false) => "not inside",
        None => "not known",
    };
    format!("{verdict}{}", found.remarks())
}

/// What poles that are off do when they are multiplied out.
pub fn missed(miss: f64) -> String {
    if miss.is_finite() {
        format!("miss a coefficient by {} of its scale", number(miss, 3))
    } else {
        "are too large for numbers".into()
    }
}

/// The largest of the numbers, where it is not the first.
fn at_most(places: &[(usize, f64)]) -> String {
    let most = places.iter().map(|place| place.1).fold(0.0, f64::max);
    if most > places[0].1 {
        format!(", at another by {}", number(most, 3))
    } else {
        "".into()
    }
}

/// To five digits, where a part too small to show beside them is left out.
fn complex(z: &Complex) -> String {
    let small = 5e-6 * z.magnitude().max(1.0);
    let re = if z.re.abs() < small { 0.0 } else { z.re };
    if z.im.abs() < small {
        return number(re, 5);
    }
    let sign = if z.im < 0.0 { '-' } else { '+' };
    format!("{} {sign} {}j", number(re, 5), number(z.im.abs(), 5))
}
