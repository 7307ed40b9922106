//! A sweep: readings of frequency, magnitude in dB and phase in degrees, and their file.

use std::fmt::Write;

use crate::words::{counted, quoted};

/// The most readings that the library takes in one list.
pub const LIMIT: usize = 4096;

#[derive(Debug, Default)]
pub struct Sweep {
    pub omega: Vec<f64>,
    pub db: Vec<f64>,
    pub phase: Vec<f64>,
}

impl Sweep {
    pub fn len(&self) -> usize {
        self.omega.len()
    }

    pub fn push(&mut self, omega: f64, db: f64, phase: f64) {
        self.omega.push(omega);
        self.db.push(db);
        self.phase.push(phase);
    }

    /// Reads the lines of a file. The error names the line and what is wrong with it.
    pub fn parse(text: &str) -> Result<Sweep, String> {
        let mut sweep = Sweep::default();
        let mut columns = 0;
        for (i, line) in text.lines().enumerate() {
            let line = line.trim();
            if line.is_empty() || line.starts_with('#') {
                continue;
            }
            let fields = fields(line);
            if columns == 0 {
                if fields.len() >= 3 && fields.iter().all(|field| is_name(field)) {
                    columns = fields.len();
                    continue;
                }
                columns = 3;
            }
            reading(&fields, columns)
                .map(|(omega, db, phase)| sweep.push(omega, db, phase))
                .map_err(|wrong| format!("line {}: {wrong}", i + 1))?;
        }
        if sweep.len() == 0 {
            return Err("there is no reading in it".into());
        }
        Ok(sweep)
    }

    /// The lines of a file, with the columns of `more` behind the three.
    pub fn to_csv(&self, more: &[(&str, &[f64])]) -> String {
        let mut text = "omega,db,phase".to_string();
        for (name, _) in more {
            let _ = write!(text, ",{name}");
        }
        text.push('\n');
        for i in 0..self.len() {
            let _ = write!(text, "{},{},{}", self.omega[i], self.db[i], self.phase[i]);
            for (_, values) in more {
                let _ = write!(text, ",{}", values[i]);
            }
            text.push('\n');
        }
        text
    }

    /// Follows the phase past half a turn. The count of turns starts at 0; it falls by one where a
    /// reading exceeds the one before by more than 180 degrees, and rises by one where it is lower
    /// by more than 180.
    pub fn unwrap_phase(&mut self) {
        let mut turns = 0.0;
        let mut before = f64::NAN;
        for phase in &mut self.phase {
            let wrapped = *phase;
            if wrapped - before > 180.0 {
                turns -= 1.0;
            } else if wrapped - before < -180.0 {
                turns += 1.0;
            }
            before = wrapped;
            *phase = wrapped + 360.0 * turns;
        }
    }

    /// The first two neighbours between which the phase jumps by more than 180 degrees.
    pub fn jump(&self) -> Option<(f64, f64)> {
        let i = (1..self.len()).find(|&i| (self.phase[i] - self.phase[i - 1]).abs() > 180.0)?;
        Some((self.omega[i - 1], self.omega[i]))
    }

    /// How many readings hold a NaN or an infinity.
    pub fn not_finite(&self) -> usize {
        (0..self.len())
            .filter(|&i| {
                let reading = [self.omega[i], self.db[i], self.phase[i]];
                reading.iter().any(|x| !x.is_finite())
            })
            .count()
    }
}

fn fields(line: &str) -> Vec<&str> {
    if line.contains(';') {
        line.split(';').map(str::trim).collect()
    } else if line.contains(',') {
        line.split(',').map(str::trim).collect()
    } else {
        line.split_whitespace().collect()
    }
}

/// Whether a field names a column: it neither is a number nor begins like one, with a decimal comma or
/// in quotes.
fn is_name(field: &str) -> bool {
    let like_a_number = |c: char| c.is_ascii_digit() || "+-.,".contains(c);
    let inside = field.trim_start_matches(['"', '\'', ' ']);
    field.parse::<f64>().is_err() && !inside.starts_with(like_a_number)
}

fn reading(fields: &[&str], columns: usize) -> Result<(f64, f64, f64), String> {
    if fields.len() != columns {
        let held = counted(fields.len(), "field");
        return Err(if columns == 3 {
            format!("{held} where 3 are needed: frequency, dB and phase, with decimal points")
        } else {
            format!("{held} where the first line names {columns}")
        });
    }
    let number = |i: usize, what: &str| {
        fields[i].parse::<f64>().map_err(|_| {
            let decimal = if fields[i].contains(',') {
                "; a number has a decimal point"
            } else {
                ""
            };
            format!("the {what} is no number: {}{decimal}", quoted(fields[i]))
        })
    };
    Ok((
        number(0, "frequency")?,
        number(1, "magnitude in dB")?,
        number(2, "phase in degrees")?,
    ))
}
