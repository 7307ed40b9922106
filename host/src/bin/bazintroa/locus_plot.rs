//! The root locus with the unit circle.

use std::collections::HashSet;

use bazintroa::Complex;

use crate::locus::{Found, Poles};
use crate::svg::{Axis, Mark, Panel, Pen, Svg, INK};
use crate::words::{counted, number};

const UNIT: Pen = Pen::new(INK, 1.4, "6 3");
const PATH: Pen = Pen::new("#1f4e8c", 1.8, "");
const START: Mark = Mark::Cross("#1f4e8c");
const END: Mark = Mark::Box("#1f4e8c");
const OUT: Mark = Mark::Dot("#c2410c");
const DOUBTFUL: Mark = Mark::Halo("#9d174d");
const AXIS: Pen = Pen::new("#8a8a8a", 1.0, "");

pub fn page(name: &str, gains: &[f64], locus: &[Poles], out: Option<usize>) -> String {
    let (width, height) = (640.0, 640.0);
    let points: Vec<Option<&Found>> = locus.iter().map(Poles::found).collect();
    let is_finite = |pole: &Complex| pole.re.is_finite() && pole.im.is_finite();
    let reach = points
        .iter()
        .flatten()
        .flat_map(|found| found.poles())
        .flat_map(|pole| [pole.re.abs(), pole.im.abs()])
        .filter(|far| far.is_finite())
        .fold(0.0_f64, f64::max);
    let reach = (reach * 1.08).clamp(1.25, 3.0);
    let panel = Panel {
        left: 86.0,
        top: 46.0,
        width,
        height,
        x: Axis::fixed(-reach, reach, 0.5),
        y: Axis::fixed(-reach, reach, 0.5),
    };
    let doubtful: Vec<&Found> = points
        .iter()
        .flatten()
        .copied()
        .filter(|found| !found.is_sound())
        .collect();
    let mut svg = Svg::new(760.0, 830.0, &format!("Root locus of {name}"));
    panel.frame(&mut svg, "real part of z", "imaginary part of z");
    svg.inside(&panel, |svg| {
        svg.line(panel.at(-reach, 0.0), panel.at(reach, 0.0), AXIS);
        svg.line(panel.at(0.0, -reach), panel.at(0.0, reach), AXIS);
        svg.circle(panel.at(0.0, 0.0), width / (2.0 * reach), UNIT);
        for branch in branches(&points) {
            if let [pole] = branch[..] {
                svg.mark(panel.at(pole.re, pole.im), Mark::Point(PATH.color));
            }
            panel.trace(svg, branch.into_iter().map(|pole| (pole.re, pole.im)), PATH);
        }
        // Where many fall together, one stands for them.
        let mut drawn = HashSet::new();
        for pole in doubtful.iter().flat_map(|found| found.poles()) {
            let (x, y) = panel.at(pole.re, pole.im);
            if is_finite(pole) && drawn.insert(((x / 4.0) as i64, (y / 4.0) as i64)) {
                svg.mark((x, y), DOUBTFUL);
            }
        }
        let mut marks = |found: Option<&Found>, mark: Mark, shown: fn(&Complex) -> bool| {
            for pole in found.map_or(&[][..], Found::poles) {
                if shown(pole) && is_finite(pole) {
                    svg.mark(panel.at(pole.re, pole.im), mark);
                }
            }
        };
        marks(points[0], START, |_| true);
        marks(points[points.len() - 1], END, |_| true);
        if let Some(i) = out {
            marks(points[i], OUT, |pole| pole.magnitude_sq() >= 1.0);
        }
    });
    let last = gains[gains.len() - 1];
    let mut entries = vec![
        (Mark::Line(PATH), "poles of the closed loop".into()),
        (Mark::Line(UNIT), "unit circle".into()),
        (START, "gain 0, the poles of the open loop".into()),
        (END, format!("gain {}", number(last, 6))),
        (
            OUT,
            match out {
                Some(i) => format!("not inside at gain {}", number(gains[i], 6)),
                None => "not inside: at no gain".into(),
            },
        ),
    ];
    if !doubtful.is_empty() {
        let gains = counted(doubtful.len(), "gain");
        entries.push((DOUBTFUL, format!("not settled, or off, at {gains}")));
    }
    let broken = doubtful.iter().filter(|found| found.is_broken()).count();
    if broken > 0 {
        let gains = counted(broken, "gain");
        entries.push((
            Mark::Nothing,
            format!("a pole is NaN, and not drawn, at {gains}"),
        ));
    }
    svg.legend(&[86.0, 420.0], 750.0, &entries);
    svg.finish()
}

/// The ways of the poles: from gain to gain each pole goes on to the nearest one left. A way ends
/// where the number of poles changes, and where they are not settled or off.
fn branches(points: &[Option<&Found>]) -> Vec<Vec<Complex>> {
    let mut done = Vec::new();
    let mut open: Vec<Vec<Complex>> = Vec::new();
    for point in points {
        let sound = point.filter(|found| found.is_sound());
        let mut left: Vec<Complex> = sound.map_or(Vec::new(), |found| found.poles().to_vec());
        if left.len() != open.len() {
            done.append(&mut open);
            open = left.into_iter().map(|pole| vec![pole]).collect();
            continue;
        }
        for branch in &mut open {
            let from = branch[branch.len() - 1];
            let distance = |to: &Complex| (to.re - from.re).hypot(to.im - from.im);
            let nearest = (0..left.len())
                .min_by(|&i, &j| distance(&left[i]).total_cmp(&distance(&left[j])))
                .expect("as many poles as branches");
            branch.push(left.swap_remove(nearest));
        }
    }
    done.append(&mut open);
    done
}
