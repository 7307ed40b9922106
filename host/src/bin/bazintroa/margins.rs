//! `margins SWEEP.csv`, and the crossovers and margins of a sweep in words.

use std::fmt::Write;

use bazintroa::{
    gain_crossover_frequency, gain_margin, phase_crossover_frequency, phase_margin, BodeSummary,
    Refusal,
};

use crate::arguments::{Arguments, Command, FILE};
use crate::bode_plot;
use crate::json::Json;
use crate::output::{Failure, Output};
use crate::sweep::{Sweep, LIMIT};
use crate::words::{count, counted, listed, number, refused};

pub const COMMAND: Command = Command {
    name: "margins",
    help: &["\
bazintroa margins SWEEP.csv [--unwrap] [--svg FILE] [--json]

Gain and phase crossover, gain and phase margin of a sweep. Each line of the file is a reading:
frequency in radians per sample, magnitude in dB, phase in degrees, with commas, semicolons or
blanks between. A first line may name the columns, also more than three, of which the first three
are read. Empty lines and lines that begin with # are passed over. The file - is standard input.

The first crossing in the file's order counts. Above 4,096 readings the crossovers are still those
of the whole sweep, and the margins are refused.

  --unwrap    follow the phase past half a turn: where it jumps by more than 180 degrees from one
              reading to the next, whole turns are taken away or added from there on
  --svg FILE  write a Bode plot with crossovers and margins
  --json      print JSON. What is not there is null; NaN and the infinities are the texts \"NaN\",
              \"Infinity\" and \"-Infinity\"

Example:
  bazintroa margins examples/steady/sweep.csv --svg steady.svg
"],
    file: "SWEEP.csv",
    options: &[("--unwrap", ""), ("--svg", FILE), ("--json", "")],
    run,
};

fn run(arguments: &Arguments) -> Result<Output, Failure> {
    let name = arguments.file_name();
    let mut sweep = Sweep::parse(&arguments.read()?).map_err(|wrong| format!("{name}: {wrong}"))?;
    let unwrapped = arguments.has("--unwrap");
    if unwrapped {
        sweep.unwrap_phase();
    }
    let margins = Margins::of(&sweep).map_err(|refusal| format!("{name}: {}", refused(refusal)))?;

    let mut output = Output::default();
    if let Some(path) = arguments.path("--svg") {
        output
            .files
            .push((path, bode_plot::page(&name, &sweep, &margins)));
    }
    output.text = if arguments.has("--json") {
        let mut fields = vec![
            ("command", Json::Text("margins".into())),
            ("readings", Json::Count(sweep.len())),
            ("not_finite", Json::Count(sweep.not_finite())),
            ("unwrapped", Json::Bool(unwrapped)),
        ];
        fields.extend(margins.fields());
        format!("{}\n", Json::Object(fields))
    } else {
        let mut text = format!("{name}: {}\n\n", counted(sweep.len(), "reading"));
        text.push_str(&table(&margins.rows(&sweep)));
        text.push('\n');
        for note in margins.notes(&sweep) {
            let _ = writeln!(text, "{note}");
        }
        for (path, _) in &output.files {
            let _ = writeln!(text, "The picture is in {}.", path.display());
        }
        text
    };
    Ok(output)
}

/// The answers of a sweep.
#[derive(Debug)]
pub struct Margins {
    pub gain_crossover: Option<f64>,
    pub phase_crossover: Option<f64>,
    pub gain_margin: Option<f64>,
    pub phase_margin: Option<f64>,
    /// Why there are no margins.
    pub refusal: Option<Refusal>,
    /// Every place where the magnitude crosses 0 dB, in the sweep's order.
    pub crossings: Vec<f64>,
}

impl Margins {
    pub fn of(sweep: &Sweep) -> Result<Margins, Refusal> {
        let (omega, db, phase) = (&sweep.omega[..], &sweep.db[..], &sweep.phase[..]);
        let crossings = crossings(sweep)?;
        if sweep.len() <= LIMIT {
            return Ok(Margins {
                gain_crossover: gain_crossover_frequency(omega, db, phase)?,
                phase_crossover: phase_crossover_frequency(omega, db, phase)?,
                gain_margin: gain_margin(omega, db, phase)?,
                phase_margin: phase_margin(omega, db, phase)?,
                refusal: None,
                crossings,
            });
        }
        let mut summary = BodeSummary::new();
        for start in (0..sweep.len()).step_by(LIMIT) {
            let end = (start + LIMIT).min(sweep.len());
            summary.feed(&omega[start..end], &db[start..end], &phase[start..end])?;
        }
        Ok(Margins {
            gain_crossover: summary.gain_crossover(),
            phase_crossover: summary.phase_crossover(),
            gain_margin: None,
            phase_margin: None,
            refusal: gain_margin(omega, db, phase).err(),
            crossings,
        })
    }

    /// The keys that `margins` and `loop` share.
    pub fn fields(&self) -> Vec<(&'static str, Json)> {
        vec![
            ("gain_crossover", Json::maybe(self.gain_crossover)),
            ("phase_crossover", Json::maybe(self.phase_crossover)),
            ("gain_margin_db", Json::maybe(self.gain_margin)),
            ("phase_margin_degrees", Json::maybe(self.phase_margin)),
            (
                "margins_refused",
                self.refusal
                    .map_or(Json::Null, |r| Json::Count(r.number() as usize)),
            ),
            ("gain_crossings", Json::numbers(&self.crossings)),
        ]
    }

    /// What each answer is called, and the answer in words.
    pub fn rows(&self, sweep: &Sweep) -> Vec<Row> {
        let frequency = |answer: Option<f64>, none: &str| match answer {
            Some(omega) => Row::value(omega, "rad/sample"),
            None => Row::none(none),
        };
        let margin = |answer: Option<f64>, unit: &str, crossover: Option<f64>, name: &str| match (
            answer,
            self.refusal,
            crossover,
        ) {
            (Some(margin), _, _) => Row::value(margin, unit),
            (None, Some(refusal), _) => {
                Row::words(format!("{}; margins need at most 4,096", refused(refusal)))
            }
            (None, None, None) => Row::none(&format!("there is no {name} crossover")),
            (None, None, Some(_)) => Row::none(&format!(
                "no two neighbouring readings enclose the {name} crossover"
            )),
        };
        vec![
            frequency(self.gain_crossover, &no_gain_crossover(sweep)).named("gain crossover"),
            margin(self.phase_margin, "degrees", self.gain_crossover, "gain").named("phase margin"),
            frequency(self.phase_crossover, &no_phase_crossover(sweep)).named("phase crossover"),
            margin(self.gain_margin, "dB", self.phase_crossover, "phase").named("gain margin"),
        ]
    }

    /// What a reader should know beside the answers.
    pub fn notes(&self, sweep: &Sweep) -> Vec<String> {
        let mut notes = vec![self.crossed()];
        if self.refusal.is_some() {
            notes.push(
                "The crossovers were found part by part, and are those of the whole sweep.".into(),
            );
        }
        if let Some(margin) = self.phase_margin.filter(|margin| *margin > 180.0) {
            notes.push(format!(
                "The phase at the gain crossover is above 0. A turn lower, the phase margin is {} degrees.",
                number(margin - 360.0, 6)
            ));
        }
        if let (None, Some((from, to))) = (self.phase_crossover, sweep.jump()) {
            notes.push(format!(
                "The phase jumps by more than 180 degrees between {} and {} rad/sample: it is wrapped. \
                 --unwrap follows it past -180.",
                number(from, 6),
                number(to, 6)
            ));
        }
        let not_finite = sweep.not_finite();
        if not_finite > 0 {
            notes.push(format!(
                "{} NaN or an infinity. A NaN in dB crosses nothing; a NaN phase counts as not above -180.",
                if not_finite == 1 {
                    "1 reading holds a".to_string()
                } else {
                    format!("{} readings hold a", count(not_finite))
                }
            ));
        }
        notes
    }

    fn crossed(&self) -> String {
        match &self.crossings[..] {
            [] => "0 dB is not crossed.".into(),
            [_] => "0 dB is crossed once.".into(),
            all if all.len() <= 6 => {
                let places: Vec<String> = all.iter().map(|&omega| number(omega, 6)).collect();
                format!(
                    "0 dB is crossed {} times, at {} rad/sample. The first counts.",
                    all.len(),
                    listed(&places)
                )
            }
            all => format!(
                "0 dB is crossed {} times. The first counts.",
                count(all.len())
            ),
        }
    }
}

/// Every crossing of 0 dB: the scan of each two neighbours. A reading of exactly 0 dB, which the
/// neighbours on both sides cross, counts once.
fn crossings(sweep: &Sweep) -> Result<Vec<f64>, Refusal> {
    let mut found = Vec::new();
    let mut counted = false;
    for i in 1..sweep.len() {
        let pair = i - 1..=i;
        let (omega, db, phase) = (
            &sweep.omega[pair.clone()],
            &sweep.db[pair.clone()],
            &sweep.phase[pair],
        );
        let crossing = gain_crossover_frequency(omega, db, phase)?;
        if let Some(crossing) = crossing.filter(|_| !(counted && db[0] == 0.0)) {
            found.push(crossing);
        }
        counted = crossing.is_some();
    }
    Ok(found)
}

fn no_gain_crossover(sweep: &Sweep) -> String {
    if sweep.len() < 2 {
        "one reading crosses nothing".into()
    } else if sweep.db.iter().all(|&db| db > 0.0) {
        "the magnitude stays above 0 dB in this sweep".into()
    } else if sweep.db.iter().all(|&db| db < 0.0) {
        "the magnitude stays below 0 dB in this sweep".into()
    } else {
        "no two neighbouring readings cross 0 dB".into()
    }
}

fn no_phase_crossover(sweep: &Sweep) -> String {
    if sweep.len() < 2 {
        "one reading crosses nothing".into()
    } else if sweep.phase.iter().all(|&phase| phase > -180.0) {
        "the phase never reaches -180 degrees in this sweep".into()
    } else {
        "the phase never rises above -180 degrees in this sweep".into()
    }
}

/// A line of a table: a name, a number with its unit, or words.
pub struct Row {
    name: &'static str,
    value: String,
    unit: String,
}

impl Row {
    pub fn value(value: f64, unit: &str) -> Row {
        Row {
            name: "",
            value: number(value, 6),
            unit: unit.into(),
        }
    }

    pub fn words(words: String) -> Row {
        Row {
            name: "",
            value: words,
            unit: String::new(),
        }
    }

    pub fn none(why: &str) -> Row {
        Row::words(format!("none: {why}"))
    }

    pub fn named(self, name: &'static str) -> Row {
        Row { name, ..self }
    }
}

/// The rows with names, numbers and units one below the other.
pub fn table(rows: &[Row]) -> String {
    let name = rows.iter().map(|row| row.name.len()).max().unwrap_or(0);
    let with_unit = rows.iter().filter(|row| !row.unit.is_empty());
    let value = with_unit.map(|row| row.value.len()).max().unwrap_or(0);
    let mut text = String::new();
    for row in rows {
        let line = format!("  {:name$}   {:value$} {}", row.name, row.value, row.unit);
        let _ = writeln!(text, "{}", line.trim_end());
    }
    text
}
