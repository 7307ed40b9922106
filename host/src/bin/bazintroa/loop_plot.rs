//! The sheet of a loop: Bode plot, Nyquist curve, and the magnitudes of S, T and Q.

use crate::bode_plot::{self, decibels, CURVE, FREQUENCY};
use crate::loop_command::Responses;
use crate::margins::Margins;
use crate::svg::{Axis, Mark, Panel, Pen, Svg, INK, LEGEND_ROW};
use crate::words::number;

const MIRRORED: Pen = Pen::new("#1f4e8c", 1.0, "4 3");
const APPROACH: Pen = Pen::new("#9d174d", 2.4, "");
const SAFE: Pen = Pen::new("#9d174d", 1.0, "3 3");
const UNIT: Pen = Pen::new("#8a8a8a", 1.0, "");
const CRITICAL: Mark = Mark::Cross(INK);
const S: Pen = Pen::new("#7c3aed", 1.8, "");
const T: Pen = Pen::new("#0f766e", 1.8, "8 3");
const Q: Pen = Pen::new("#a16207", 1.8, "2 3");
const BANDWIDTH: Pen = Pen::new("#0f766e", 1.2, "9 3 2 3");

pub fn page(
    name: &str,
    responses: &Responses,
    margins: &Margins,
    bandwidth: Option<f64>,
    approach: f64,
) -> String {
    let mut bode = vec![(Mark::Line(CURVE), "loop gain L".to_string())];
    bode.extend(bode_plot::legend(margins));
    let right = vec![
        (Mark::Line(MIRRORED), "L at negative frequencies".into()),
        (CRITICAL, "the point -1".into()),
        (
            Mark::Line(APPROACH),
            format!("closest approach to -1: {}", number(approach, 6)),
        ),
        (Mark::Line(UNIT), "unit circle".into()),
        (Mark::Line(S), "S, from disturbance to output".into()),
        (Mark::Line(T), "T, from reference to output".into()),
        (Mark::Line(Q), "Q, from reference to control".into()),
        (
            Mark::Line(BANDWIDTH),
            match bandwidth {
                Some(omega) => format!("bandwidth {} rad/sample", number(omega, 6)),
                None => "bandwidth: none".into(),
            },
        ),
    ];
    let rows = bode.len().div_ceil(2).max(right.len().div_ceil(2)) as f64;
    let mut svg = Svg::new(
        1300.0,
        820.0 + LEGEND_ROW * rows,
        &format!("Loop of {name}"),
    );

    bode_plot::draw(
        &mut svg,
        (86.0, 56.0),
        (540.0, 690.0),
        &responses.sweep,
        margins,
    );
    nyquist(&mut svg, (730.0, 56.0), responses);
    sensitivities(&mut svg, (730.0, 476.0), responses, bandwidth);
    svg.legend(&[50.0, 352.0], 816.0, &bode);
    svg.legend(&[700.0, 985.0], 816.0, &right);
    svg.finish()
}

fn nyquist(svg: &mut Svg, (left, top): (f64, f64), responses: &Responses) {
    let (width, height) = (540.0, 350.0);
    // A window about 0 and -1, as far as the curve fills it, with equal scales.
    let reach = |values: &[f64], least: f64| {
        let far = values.iter().fold(0.0_f64, |far, v| far.max(v.abs()));
        (far * 1.05).clamp(least, 2.0)
    };
    let up = reach(&responses.im, 1.2);
    let across = 2.0 * up * width / height;
    let panel = Panel {
        left,
        top,
        width,
        height,
        x: Axis::fixed(-0.5 - across / 2.0, -0.5 + across / 2.0, 0.5),
        y: Axis::fixed(-up, up, 0.5),
    };
    let unit = height / (2.0 * up);
    panel.frame(svg, "real part of L", "imaginary part of L");
    svg.inside(&panel, |svg| {
        svg.circle(panel.at(0.0, 0.0), unit, UNIT);
        let points = || {
            responses
                .re
                .iter()
                .copied()
                .zip(responses.im.iter().copied())
        };
        panel.trace(svg, points().map(|(re, im)| (re, -im)), MIRRORED);
        panel.trace(svg, points(), CURVE);
        let distance = |(re, im): (f64, f64)| (re + 1.0).hypot(im);
        let nearest = points().min_by(|p, q| distance(*p).total_cmp(&distance(*q)));
        if let Some(nearest) = nearest {
            svg.circle(
                panel.at(-1.0, 0.0),
                distance(nearest).min(50.0) * unit,
                SAFE,
            );
            svg.line(
                panel.at(-1.0, 0.0),
                panel.at(nearest.0, nearest.1),
                APPROACH,
            );
        }
        svg.mark(panel.at(-1.0, 0.0), CRITICAL);
    });
}

fn sensitivities(
    svg: &mut Svg,
    (left, top): (f64, f64),
    responses: &Responses,
    bandwidth: Option<f64>,
) {
    let Responses { sweep, s, t, q, .. } = responses;
    let all = || s.iter().chain(t).chain(q).copied();
    let panel = Panel {
        left,
        top,
        width: 540.0,
        height: 270.0,
        x: Axis::frequencies(&sweep.omega),
        y: decibels(all()),
    };
    panel.frame(svg, FREQUENCY, "magnitude, dB");
    svg.inside(&panel, |svg| {
        if let Some(omega) = bandwidth.filter(|omega| omega.is_finite()) {
            let (x, _) = panel.at(omega, 0.0);
            svg.line((x, panel.top), (x, panel.top + panel.height), BANDWIDTH);
        }
        for (values, pen) in [(q, Q), (t, T), (s, S)] {
            let points = sweep.omega.iter().copied().zip(values.iter().copied());
            panel.curve(svg, points, pen);
        }
    });
}
