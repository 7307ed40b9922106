//! `loop LOOP.txt`: the responses of a plant with its controller on a grid of frequencies.

use std::f64::consts::PI;
use std::fmt::Write;

use bazintroa::{
    bandwidth, distance_to_critical, fill_frequency_grid, pairs, sensitivity_crossover, Complex,
    LoopShaping, Refusal,
};

use crate::arguments::{Arguments, Command, FILE};
use crate::json::Json;
use crate::locus::{self, Found, Poles};
use crate::loop_plot;
use crate::margins::{table, Margins, Row};
use crate::output::{Failure, Output};
use crate::sweep::{Sweep, LIMIT};
use crate::words::{count, counted, listed, number, refused};
use crate::{loop_file, words};

pub const COMMAND: Command = Command {
    name: "loop",
    help: &[
        "\
bazintroa loop LOOP.txt [--points N] [--omega-min W] [--omega-max W] [--even] [--unwrap]
               [--csv FILE] [--svg FILE] [--json]

Crossovers, margins, bandwidth and closest approach of a loop, from its responses on a grid of
frequencies: the loop gain L = P·C, S = 1/(1 + L), T = L/(1 + L) and Q = C/(1 + L).

",
        loop_file::FORM,
        "
The phase is wrapped, from -180 to 180 degrees. A frequency where L is 0, infinite or NaN, or where
a denominator vanishes, is left out. The closed loop is stable if all its poles are inside the unit
circle.

",
        locus::ENDINGS,
        "
Of poles that are spent or off the verdict is given, and says that it is of such.

  --points N     readings of the grid, 2 to 4,096 (4,096)
  --omega-min W  lowest frequency in radians per sample (0.001)
  --omega-max W  highest frequency (3.14159.., half the sample rate)
  --even         even steps from 0, where there are otherwise even ratios from the lowest
  --unwrap       follow the phase of L past half a turn, as in bazintroa margins
  --csv FILE     write the sweep: omega, db and phase of L, its parts, S, T and Q in dB
  --svg FILE     write a Bode plot, a Nyquist curve and the magnitudes of S, T and Q
  --json         print JSON, as in bazintroa margins

Example:
  bazintroa loop examples/steady/loop.txt --unwrap --svg steady.svg
",
    ],
    file: "LOOP.txt",
    options: &[
        ("--points", "whole number"),
        ("--omega-min", "number"),
        ("--omega-max", "number"),
        ("--even", ""),
        ("--unwrap", ""),
        ("--csv", FILE),
        ("--svg", FILE),
        ("--json", ""),
    ],
    run,
};

/// The responses of a loop on a grid of frequencies.
pub struct Responses {
    /// Frequency, and L in dB and degrees.
    pub sweep: Sweep,
    pub re: Vec<f64>,
    pub im: Vec<f64>,
    pub s: Vec<f64>,
    pub t: Vec<f64>,
    pub q: Vec<f64>,
    /// Frequencies of the grid at which L is 0, infinite or NaN, or a denominator vanishes.
    left_out: Vec<f64>,
}

/// As the Rust has it, with its floor where there is no logarithm.
fn decibels(z: Complex) -> f64 {
    if z.magnitude_sq() > 0.0 {
        20.0 * z.magnitude().log10()
    } else {
        -120.0
    }
}

impl Responses {
    fn on(shaping: &LoopShaping, grid: &[f64]) -> Result<Responses, Refusal> {
        let mut responses = Responses {
            sweep: Sweep::default(),
            re: Vec::new(),
            im: Vec::new(),
            s: Vec::new(),
            t: Vec::new(),
            q: Vec::new(),
            left_out: Vec::new(),
        };
        let mut cosines = [0.0; 9];
        let mut sines = [0.0; 9];
        for &omega in grid {
            pairs(omega, &mut cosines, &mut sines);
            let l = shaping.loop_gain_at(&cosines, &sines)?;
            if (l.re == 0.0 && l.im == 0.0) || !l.re.is_finite() || !l.im.is_finite() {
                responses.left_out.push(omega);
                continue;
            }
            let phase = l.im.atan2(l.re) * (180.0 / PI);
            responses.sweep.push(omega, decibels(l), phase);
            responses.re.push(l.re);
            responses.im.push(l.im);
            let s = shaping.sensitivity_at(&cosines, &sines)?;
            let t = shaping.comp_sensitivity_at(&cosines, &sines)?;
            let q = shaping.control_sensitivity_at(&cosines, &sines)?;
            responses.s.push(decibels(s));
            responses.t.push(decibels(t));
            responses.q.push(decibels(q));
        }
        Ok(responses)
    }
}

/// Even ratios from `from` to `to`, as the Rust's `compute_bode` spaces them.
fn even_ratios(from: f64, to: f64, n: usize) -> Result<Vec<f64>, Refusal> {
    if n < 2 {
        return Err(Refusal::InsufficientPoints);
    }
    if from <= 0.0 || from >= to {
        return Err(Refusal::InvalidFrequencyRange);
    }
    if n > LIMIT {
        return Err(Refusal::TooMany);
    }
    let (low, high) = (from.ln(), to.ln());
    let place = |i: usize| (low + i as f64 / (n - 1) as f64 * (high - low)).exp();
    Ok((0..n).map(place).collect())
}

fn even_steps(to: f64, n: usize) -> Result<Vec<f64>, Refusal> {
    let mut list = vec![0.0; n.min(LIMIT)];
    fill_frequency_grid(to, n, &mut list)?;
    Ok(list)
}

fn grid(arguments: &Arguments) -> Result<Vec<f64>, Failure> {
    let n = arguments.count("--points")?.unwrap_or(LIMIT);
    let from = arguments.number("--omega-min")?;
    let to = arguments.number("--omega-max")?.unwrap_or(PI);
    let (list, asked) = if arguments.has("--even") {
        if from.is_some() {
            return Err("--even begins at 0, so --omega-min cannot be given with it"
                .to_string()
                .into());
        }
        (even_steps(to, n), format!("from 0 to {}", number(to, 6)))
    } else {
        let from = from.unwrap_or(0.001);
        let asked = format!("from {} to {}", number(from, 6), number(to, 6));
        (even_ratios(from, to, n), asked)
    };
    list.map_err(|refusal| {
        let points = counted(n, "point");
        let why = match refusal {
            Refusal::InvalidFrequencyRange if !arguments.has("--even") => {
                "the lowest frequency must be above 0 and below the highest".to_string()
            }
            other => other.to_string(),
        };
        Failure::Said(format!(
            "a grid of {points} {asked} is refused with {}: {why}",
            refusal.number()
        ))
    })
}

fn run(arguments: &Arguments) -> Result<Output, Failure> {
    let name = arguments.file_name();
    let grid = grid(arguments)?;
    let shaping =
        loop_file::parse(&arguments.read()?).map_err(|wrong| format!("{name}: {wrong}"))?;
    let named = |refusal: Refusal| Failure::Said(format!("{name}: {}", refused(refusal)));
    let mut responses = Responses::on(&shaping, &grid).map_err(named)?;
    if responses.sweep.len() == 0 {
        return Err(
            format!("{name}: L is 0 or has no value at every frequency of the grid").into(),
        );
    }
    let unwrapped = arguments.has("--unwrap");
    if unwrapped {
        responses.sweep.unwrap_phase();
    }
    let Responses {
        sweep,
        re,
        im,
        s,
        t,
        q,
        left_out,
    } = &responses;

    let margins = Margins::of(sweep).map_err(named)?;
    let equal = sensitivity_crossover(&sweep.omega, s, t).map_err(named)?;
    let bandwidth = bandwidth(&sweep.omega, s, t).map_err(named)?;
    let approach = distance_to_critical(re, im).map_err(named)?;
    let (closed, multiplied) = locus::at_gain_1(&shaping);

    let mut output = Output::default();
    let csv = arguments.path("--csv");
    if let Some(path) = &csv {
        let more: [(&str, &[f64]); 5] = [
            ("re", re),
            ("im", im),
            ("s_db", s),
            ("t_db", t),
            ("q_db", q),
        ];
        output.files.push((path.clone(), sweep.to_csv(&more)));
    }
    let svg = arguments.path("--svg");
    if let Some(path) = &svg {
        let picture = loop_plot::page(&name, &responses, &margins, bandwidth, approach);
        output.files.push((path.clone(), picture));
    }

    if arguments.has("--json") {
        let mut fields = vec![
            ("command", Json::Text("loop".into())),
            ("readings", Json::Count(sweep.len())),
            ("left_out", Json::numbers(left_out)),
            ("unwrapped", Json::Bool(unwrapped)),
        ];
        fields.extend(margins.fields());
        fields.push(("sensitivity_crossover", Json::maybe(equal)));
        fields.push(("bandwidth", Json::maybe(bandwidth)));
        fields.push(("closest_approach", Json::Number(approach)));
        let mut poles = closed.fields();
        poles.push(("multiplied_by_z", Json::Bool(multiplied)));
        let why = closed.decided().err();
        poles.push(("not_decided", why.map_or(Json::Null, Json::Text)));
        fields.push(("closed_loop", Json::Object(poles)));
        output.text = format!("{}\n", Json::Object(fields));
        return Ok(output);
    }

    let mut text = format!(
        "{name}: plant of order {}, controller of order {}\n{} from {} to {} rad/sample\n\n",
        shaping.plant.order,
        shaping.controller.order,
        counted(sweep.len(), "reading"),
        number(sweep.omega[0], 6),
        number(sweep.omega[sweep.len() - 1], 6)
    );
    let mut rows = margins.rows(sweep);
    rows.push(
        match equal {
            Some(omega) => Row::value(omega, "rad/sample"),
            None => Row::none("the magnitudes of S and T are never equal on this grid"),
        }
        .named("S equals T"),
    );
    rows.push(
        match bandwidth {
            Some(omega) => Row::value(omega, "rad/sample"),
            None => Row::none("T never falls 3 dB below its first value on this grid"),
        }
        .named("bandwidth"),
    );
    rows.push(Row::value(approach, "from -1").named("closest approach"));
    rows.push(Row::words(closed.in_words()).named("closed loop"));
    text.push_str(&table(&rows));
    text.push('\n');
    for note in margins.notes(sweep) {
        let _ = writeln!(text, "{note}");
    }
    for note in closed.notes() {
        let _ = writeln!(text, "{note}");
    }
    if multiplied {
        text.push_str(
            "The closed loop's polynomial is of degree 3, which is refused with 12: it was multiplied by z.\n",
        );
    }
    match &left_out[..] {
        [] => {}
        [one] => {
            let _ = writeln!(
                text,
                "The frequency {} rad/sample is left out: L is 0, infinite or NaN there, or a denominator vanishes.",
                number(*one, 6)
            );
        }
        [first, ..] => {
            let _ = writeln!(
                text,
                "{} frequencies are left out, the first {} rad/sample: L is 0, infinite or NaN there, or a denominator vanishes.",
                count(left_out.len()),
                number(*first, 6)
            );
        }
    }
    if let Some(path) = &csv {
        let _ = writeln!(text, "The sweep is in {}.", path.display());
    }
    if let Some(path) = &svg {
        let _ = writeln!(text, "The picture is in {}.", path.display());
    }
    output.text = text;
    Ok(output)
}

impl Poles {
    /// The poles of the loop as written and whether it is stable, or why that is not decided.
    fn decided(&self) -> Result<(&Found, bool), String> {
        match self {
            Poles::NoProduct(why) => Err(why.clone()),
            Poles::Refused(refusal) => Err(format!("its poles are {}", words::refused(*refusal))),
            Poles::Found(found) => match found.stable() {
                Some(stable) => Ok((found, stable)),
                None => Err("a part of a pole is NaN".into()),
            },
        }
    }

    /// Whether the loop as written is stable.
    fn in_words(&self) -> String {
        match (self, self.decided()) {
            (Poles::Found(_), Err(why)) => format!("not known: {why}"),
            (_, Err(why)) => format!("not decided: {why}"),
            (_, Ok((found, stable))) => {
                let mut of: Vec<String> = Vec::new();
                if found.spent().is_some() {
                    of.push("were still moving".into());
                }
                if found.off().is_some() {
                    of.push("do not give the polynomial back".into());
                }
                let of = match &of[..] {
                    [] => "".into(),
                    of => format!(", of poles that {}", listed(of)),
                };
                format!(
                    "{}{of}: the outermost pole lies {} from 0",
                    if stable { "stable" } else { "not stable" },
                    number(found.outermost(), 6)
                )
            }
        }
    }

    /// What is to be remarked on the poles.
    fn notes(&self) -> Vec<String> {
        let found = self.found();
        let spent = found.and_then(Found::spent).map(|change| {
            format!(
                "The search for the closed loop's poles is spent: the last of its 200 rounds still moved a pole by {}.",
                number(change, 3)
            )
        });
        let off = found.and_then(Found::off).map(|miss| {
            format!(
                "Multiplied out, the closed loop's poles {}: some of them are wrong.",
                locus::missed(miss)
            )
        });
        spent.into_iter().chain(off).collect()
    }
}
