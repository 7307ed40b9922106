//! The Bode plot of a sweep, with its crossovers and margins.

use crate::margins::Margins;
use crate::svg::{range, Axis, Mark, Panel, Pen, Svg, INK, LEGEND_ROW};
use crate::sweep::Sweep;
use crate::words::number;

pub const CURVE: Pen = Pen::new("#1f4e8c", 1.8, "");
const JUMP: Pen = Pen::new("#1f4e8c", 0.9, "1 3");
/// A sweep of at most this many readings shows each of them.
const FEW: usize = 60;
const LEVEL: Pen = Pen::new(INK, 1.0, "2 3");
const GAIN: &str = "#c2410c";
const GAIN_LINE: Pen = Pen::new(GAIN, 1.2, "7 4");
const PHASE_MARGIN: Pen = Pen::new(GAIN, 4.0, "");
const PHASE: &str = "#15803d";
const PHASE_LINE: Pen = Pen::new(PHASE, 1.2, "9 3 2 3");
const GAIN_MARGIN: Pen = Pen::new(PHASE, 4.0, "");

pub const FREQUENCY: &str = "frequency ω, rad/sample";

/// A sheet with the Bode plot alone.
pub fn page(name: &str, sweep: &Sweep, margins: &Margins) -> String {
    let entries = legend(margins);
    let rows = entries.len().div_ceil(2) as f64;
    let mut svg = Svg::new(
        800.0,
        610.0 + LEGEND_ROW * rows,
        &format!("Bode plot of {name}"),
    );
    draw(&mut svg, (86.0, 46.0), (680.0, 490.0), sweep, margins);
    svg.legend(&[86.0, 440.0], 608.0, &entries);
    svg.finish()
}

/// Magnitude above phase, on the place and of the size given.
pub fn draw(
    svg: &mut Svg,
    (left, top): (f64, f64),
    (width, height): (f64, f64),
    sweep: &Sweep,
    margins: &Margins,
) {
    let gap = 16.0;
    let half = (height - gap) / 2.0;
    let magnitude = Panel {
        left,
        top,
        width,
        height: half,
        x: Axis::frequencies(&sweep.omega),
        y: decibels(sweep.db.iter().copied()),
    };
    let phase = Panel {
        top: top + half + gap,
        x: Axis::frequencies(&sweep.omega),
        y: degrees(&sweep.phase),
        ..magnitude
    };

    magnitude.frame(svg, "", "magnitude, dB");
    svg.inside(&magnitude, |svg| {
        magnitude.level(svg, 0.0);
        magnitude.verticals(svg, margins);
        readings(svg, &magnitude, &sweep.omega, &sweep.db, false);
        if let (Some(omega), Some(margin)) = (margins.phase_crossover, margins.gain_margin) {
            let ends = (magnitude.at(omega, 0.0), magnitude.at(omega, -margin));
            svg.line(ends.0, ends.1, GAIN_MARGIN);
        }
        for &omega in margins.crossings.iter().skip(1).take(100) {
            svg.mark(magnitude.at(omega, 0.0), Mark::Ring(GAIN));
        }
        if let Some(omega) = margins.gain_crossover {
            svg.mark(magnitude.at(omega, 0.0), Mark::Dot(GAIN));
        }
    });

    phase.frame(svg, FREQUENCY, "phase, degrees");
    svg.inside(&phase, |svg| {
        phase.level(svg, -180.0);
        phase.verticals(svg, margins);
        readings(svg, &phase, &sweep.omega, &sweep.phase, true);
        if let (Some(omega), Some(margin)) = (margins.gain_crossover, margins.phase_margin) {
            let ends = (phase.at(omega, -180.0), phase.at(omega, margin - 180.0));
            svg.line(ends.0, ends.1, PHASE_MARGIN);
        }
        if let Some(omega) = margins.phase_crossover {
            svg.mark(phase.at(omega, -180.0), Mark::Dot(PHASE));
        }
    });
}

/// The curve through readings, and each reading where there are few. Where a wrapped phase jumps, a
/// dotted line joins the pieces.
fn readings(svg: &mut Svg, panel: &Panel, omega: &[f64], values: &[f64], wrapped: bool) {
    let mut pieces = Vec::with_capacity(values.len());
    let mut before = (f64::NAN, f64::NAN);
    for reading in omega.iter().copied().zip(values.iter().copied()) {
        if wrapped && (reading.1 - before.1).abs() > 180.0 {
            pieces.push((f64::NAN, f64::NAN));
            panel.curve(svg, [before, reading].into_iter(), JUMP);
        }
        pieces.push(reading);
        before = reading;
    }
    panel.curve(svg, pieces.into_iter(), CURVE);
    if values.len() <= FEW {
        for (&omega, &value) in omega.iter().zip(values) {
            if omega.is_finite() && value.is_finite() {
                svg.mark(panel.at(omega, value), Mark::Point(CURVE.color));
            }
        }
    }
}

impl Panel {
    fn level(&self, svg: &mut Svg, y: f64) {
        let (_, y) = self.at(1.0, y);
        svg.line((self.left, y), (self.left + self.width, y), LEVEL);
    }

    fn verticals(&self, svg: &mut Svg, margins: &Margins) {
        let lines = [
            (margins.gain_crossover, GAIN_LINE),
            (margins.phase_crossover, PHASE_LINE),
        ];
        for (omega, pen) in lines {
            if let Some(omega) = omega.filter(|omega| omega.is_finite()) {
                let (x, _) = self.at(omega, 0.0);
                svg.line((x, self.top), (x, self.top + self.height), pen);
            }
        }
    }
}

/// An axis in dB that shows 0 and at most the upper 160 dB.
pub fn decibels(values: impl Iterator<Item = f64>) -> Axis {
    let (least, greatest) = range(values, 1000.0).unwrap_or((0.0, 0.0));
    let to = greatest.max(0.0) + 1.0;
    let from = (least.min(0.0) - 1.0).max(to.min(60.0) - 160.0);
    Axis::stepped(from, to, &[1.0, 2.0, 5.0, 10.0, 20.0, 40.0, 50.0], 7)
}

fn degrees(values: &[f64]) -> Axis {
    let (least, greatest) = range(values.iter().copied(), 1e5).unwrap_or((-180.0, 0.0));
    let steps = [15.0, 30.0, 45.0, 90.0, 180.0, 360.0, 720.0, 1440.0];
    Axis::stepped(least.min(-181.0), greatest.max(-179.0), &steps, 7)
}

/// What the marks mean, with the answers.
pub fn legend(margins: &Margins) -> Vec<(Mark, String)> {
    let answer = |name: &str, value: Option<f64>, unit: &str| match value {
        Some(value) => format!("{name} {} {unit}", number(value, 6)),
        None => format!("{name}: none"),
    };
    let mut entries = vec![
        (
            Mark::Line(GAIN_LINE),
            answer("gain crossover", margins.gain_crossover, "rad/sample"),
        ),
        (
            Mark::Line(PHASE_MARGIN),
            answer("phase margin", margins.phase_margin, "degrees"),
        ),
        (
            Mark::Line(PHASE_LINE),
            answer("phase crossover", margins.phase_crossover, "rad/sample"),
        ),
        (
            Mark::Line(GAIN_MARGIN),
            answer("gain margin", margins.gain_margin, "dB"),
        ),
        (Mark::Line(LEVEL), "0 dB and -180 degrees".into()),
    ];
    if margins.crossings.len() > 1 {
        entries.push((Mark::Ring(GAIN), "a later crossing of 0 dB".into()));
    }
    entries
}
