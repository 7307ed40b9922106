//! The tables that the prover computes, crates/checked_definitions/specs/Asked.antt: cases in the
//! words of the definitions, and what the Rust answers.

use crate::numbers::{NONE, NOT_KEPT, VALUE};
use crate::random::Random;
use crate::words::expected_bits;
use crate::{complex, grids, locus, scans, searches, sensitivity, start_table, summaries};

const HEAD: &str = "\
-- Cases that the Rust was asked about, with its answers; a float is given by its bits. Refusals that the Rust does not have are document 01's.
-- Written by tools/oracle/run, which can also compare it with what it would write now. Definitions only.
use Rattle.std.specs.Prelude.{ℕ, List, [], ◌∷◌, ◌++◌, map, replicate, Float}
use Rattle.std.specs.Float.{binary64}
use Rattle.std.specs.Float.Ieee.{of_bits}
use Rattle.laws.specs.Outcome.{Outcome, found, none, refused}
use Rattle.sweep.specs.Answer.{not_kept}
use Rattle.sweep.specs.Runs.{start, feed, join}
use Rattle.transfer_fn.specs.declared.TransferFn.{TransferFn}
use Rattle.sensitivity.specs.declared.LoopShaping.{LoopShaping}
use Rattle.worked_cases.specs.Cases.{Bode, Sensitivity, Curve, sqrt, multiply, divide, reciprocal, magnitude, eval_tf_complex, loop_gain_at, sensitivity_at, comp_sensitivity_at, control_sensitivity_at, start_at, locus_point, locus_ending, stability_region, gain_crossover, phase_crossover, gain_margin, phase_margin, sensitivity_crossover, bandwidth, distance_to_critical, gain_grid, frequency_grid, gain_of_summary, phase_of_summary, crossover_of_summary, bandwidth_of_summary, approach_of_summary, Row, ◌gives◌}

abbrev bits : ℕ → Float
bits n = of_bits binary64 n

abbrev floats : List ℕ → List Float
floats l = map bits l

-- the number of a call, and a lent list as the call leaves it
abbrev leaves : ℕ → List Float → Outcome
leaves n l = record { number = n; values = l }
";

/// Tables, each with names for what its rows ask about.
#[derive(Default)]
pub struct Rows {
    tables: Vec<Table>,
    counts: Vec<(String, usize)>,
}

struct Table {
    name: &'static str,
    what: &'static str,
    names: String,
    rows: String,
}

impl Rows {
    /// Starts a table, with a comment that says what is in it.
    pub fn table(&mut self, name: &'static str, what: &'static str) {
        self.tables.push(Table {
            name,
            what,
            names: String::new(),
            rows: String::new(),
        });
    }

    fn last(&mut self) -> &mut Table {
        self.tables.last_mut().expect("a table was started")
    }

    /// Gives a value of a type a name: a word and a number.
    pub fn name(&mut self, word: &str, of: &str, value: &str) -> String {
        let number = match self.counts.iter_mut().find(|(known, _)| known == word) {
            Some((_, count)) => {
                *count += 1;
                *count
            }
            None => {
                self.counts.push((word.into(), 1));
                1
            }
        };
        let name = format!("{word}{number}");
        self.last().names += &format!("abbrev {name} : {of}\n{name} ={value}\n\n");
        name
    }

    /// A case, and the number and values of its answer.
    pub fn row(&mut self, case: &str, number: u64, values: &[f64]) {
        let outcome = match number {
            VALUE => format!("found {}", expected(values)),
            NONE => "none".into(),
            NOT_KEPT => "not_kept".into(),
            _ => format!("refused {number}"),
        };
        self.row_that(case, &outcome);
    }

    /// A case, and an outcome in the words of the definitions.
    pub fn row_that(&mut self, case: &str, outcome: &str) {
        self.last().rows += &format!("    ({case} gives {outcome}) ∷\n");
    }
}

/// The whole file.
pub fn file() -> String {
    let random = &mut Random::new(7);
    let mut rows = Rows::default();
    complex::rows(&mut rows, random);
    sensitivity::rows(&mut rows, random);
    start_table::rows(&mut rows);
    locus::rows(&mut rows, random);
    searches::rows(&mut rows, &mut Random::new(8));
    scans::rows(&mut rows, random);
    grids::rows(&mut rows, random);
    summaries::rows(&mut rows, random);

    let mut text = String::from(HEAD);
    for table in &rows.tables {
        let Table {
            name,
            what,
            names,
            rows,
        } = table;
        text += &format!("\n-- ---- {what}\n\n{names}");
        text += &format!("unfoldable pub {name} : List Row\nunfolding of_bits\n{name} =\n");
        text += &format!("{rows}    []\n");
    }
    let names: Vec<_> = rows.tables.iter().map(|table| table.name).collect();
    text += &format!(
        "\n-- ---- all of them\n\nunfoldable pub asked : List Row\nasked = {}\n",
        names.join(" ++ ")
    );
    text
}

fn hexadecimal(bits: u64) -> String {
    let parts: Vec<_> = [48, 32, 16, 0]
        .iter()
        .map(|shift| format!("{:04x}", (bits >> shift) as u16))
        .collect();
    format!("0x{}", parts.join("_"))
}

/// A float as an argument.
pub fn float(value: f64) -> String {
    format!("(bits {})", hexadecimal(value.to_bits()))
}

/// A complex number as an argument.
pub fn pair([re, im]: [f64; 2]) -> String {
    let [re, im] = [re, im].map(|part| format!("bits {}", hexadecimal(part.to_bits())));
    format!("({re}, {im})")
}

/// A list of floats.
pub fn list(values: &[f64]) -> String {
    all(values.iter().map(|value| value.to_bits()))
}

/// A list of expected floats as an argument.
pub fn expected(values: &[f64]) -> String {
    format!("({})", all(values.iter().copied().map(expected_bits)))
}

fn all(patterns: impl Iterator<Item = u64>) -> String {
    let mut text = String::from("floats (");
    for pattern in patterns {
        text += &format!("{} ∷ ", hexadecimal(pattern));
    }
    text + "[])"
}

/// A record, a field to a line.
pub fn record(fields: &[(&str, String)]) -> String {
    let mut text = String::from("\n    record {\n");
    for (field, value) in fields {
        text += &format!("      {field} = {value};\n");
    }
    text + "    }"
}
