//! Plain SVG: axes with ticks, curves kept inside their frame, a legend. Colours differ in
//! brightness and lines in their dashes, so that a sheet can be printed in grey.

use std::fmt::Write;

use crate::words::number;

/// How a line is drawn.
#[derive(Clone, Copy)]
pub struct Pen {
    pub color: &'static str,
    pub width: f64,
    pub dash: &'static str,
}

impl Pen {
    pub const fn new(color: &'static str, width: f64, dash: &'static str) -> Pen {
        Pen { color, width, dash }
    }
}

pub const INK: &str = "#222222";
const GRID: Pen = Pen::new("#d4d4d4", 0.8, "");
const FAINT: Pen = Pen::new("#eeeeee", 0.8, "");

/// What stands before a text in the legend, and at a place of a plot.
#[derive(Clone, Copy)]
pub enum Mark {
    /// For a line of the legend that says what is not there.
    Nothing,
    Line(Pen),
    Point(&'static str),
    Dot(&'static str),
    Ring(&'static str),
    /// A ring about any other mark.
    Halo(&'static str),
    Cross(&'static str),
    Box(&'static str),
}

pub struct Svg {
    width: f64,
    height: f64,
    title: String,
    body: String,
    clips: usize,
}

impl Svg {
    /// A page with its title above.
    pub fn new(width: f64, height: f64, title: &str) -> Svg {
        let mut svg = Svg {
            width,
            height,
            title: escaped(title),
            body: String::new(),
            clips: 0,
        };
        svg.text(width / 2.0, 28.0, "middle", 16.0, &ending(title, 70));
        svg
    }

    pub fn line(&mut self, from: (f64, f64), to: (f64, f64), pen: Pen) {
        self.curve(&[from, to], pen);
    }

    pub fn curve(&mut self, points: &[(f64, f64)], pen: Pen) {
        let mut d = String::new();
        for (i, (x, y)) in points.iter().enumerate() {
            let _ = write!(d, "{}{x:.2} {y:.2}", if i == 0 { "M" } else { " L" });
        }
        let _ = writeln!(
            self.body,
            "<path d=\"{d}\" fill=\"none\" stroke-linejoin=\"round\"{}/>",
            stroke(pen)
        );
    }

    pub fn circle(&mut self, center: (f64, f64), radius: f64, pen: Pen) {
        let _ = writeln!(
            self.body,
            "<circle cx=\"{:.2}\" cy=\"{:.2}\" r=\"{radius:.2}\" fill=\"none\"{}/>",
            center.0,
            center.1,
            stroke(pen)
        );
    }

    fn disc(&mut self, (x, y): (f64, f64), radius: f64, color: &str) {
        let _ = writeln!(
            self.body,
            "<circle cx=\"{x:.2}\" cy=\"{y:.2}\" r=\"{radius}\" fill=\"{color}\"/>"
        );
    }

    pub fn mark(&mut self, (x, y): (f64, f64), mark: Mark) {
        match mark {
            Mark::Nothing => {}
            Mark::Line(pen) => self.line((x - 14.0, y), (x + 14.0, y), pen),
            Mark::Point(color) => self.disc((x, y), 2.2, color),
            Mark::Dot(color) => self.disc((x, y), 4.0, color),
            Mark::Ring(color) => self.circle((x, y), 4.0, Pen::new(color, 1.6, "")),
            Mark::Halo(color) => self.circle((x, y), 7.5, Pen::new(color, 1.6, "")),
            Mark::Cross(color) => {
                let pen = Pen::new(color, 1.8, "");
                self.line((x - 4.0, y - 4.0), (x + 4.0, y + 4.0), pen);
                self.line((x - 4.0, y + 4.0), (x + 4.0, y - 4.0), pen);
            }
            Mark::Box(color) => {
                let corners = [
                    (-4.0, -4.0),
                    (4.0, -4.0),
                    (4.0, 4.0),
                    (-4.0, 4.0),
                    (-4.0, -4.0),
                ];
                self.curve(
                    &corners.map(|(dx, dy)| (x + dx, y + dy)),
                    Pen::new(color, 1.6, ""),
                );
            }
        }
    }

    pub fn text(&mut self, x: f64, y: f64, anchor: &str, size: f64, text: &str) {
        let _ = writeln!(
            self.body,
            "<text x=\"{x:.2}\" y=\"{y:.2}\" text-anchor=\"{anchor}\" font-size=\"{size}\">{}</text>",
            escaped(text)
        );
    }

    fn upright(&mut self, x: f64, y: f64, text: &str) {
        let _ = writeln!(
            self.body,
            "<text transform=\"translate({x:.2} {y:.2}) rotate(-90)\" text-anchor=\"middle\" font-size=\"13\">{}</text>",
            escaped(text)
        );
    }

    /// Draws with everything outside the panel cut off.
    pub fn inside(&mut self, panel: &Panel, draw: impl FnOnce(&mut Svg)) {
        self.clips += 1;
        let Panel {
            left,
            top,
            width,
            height,
            ..
        } = panel;
        let _ = writeln!(
            self.body,
            "<clipPath id=\"frame{0}\"><rect x=\"{left:.2}\" y=\"{top:.2}\" width=\"{width:.2}\" height=\"{height:.2}\"/></clipPath>\n<g clip-path=\"url(#frame{0})\">",
            self.clips
        );
        draw(self);
        self.body.push_str("</g>\n");
    }

    /// Marks with their texts, in columns that begin at the given places, filled downwards.
    pub fn legend(&mut self, columns: &[f64], top: f64, entries: &[(Mark, String)]) {
        let rows = entries.len().div_ceil(columns.len());
        for (i, (mark, text)) in entries.iter().enumerate() {
            let (x, y) = (columns[i / rows], top + LEGEND_ROW * (i % rows) as f64);
            self.mark((x + 14.0, y), *mark);
            self.text(x + 38.0, y + 4.5, "start", 13.0, text);
        }
    }

    pub fn finish(self) -> String {
        let Svg {
            width,
            height,
            title,
            body,
            ..
        } = self;
        format!(
            "<svg xmlns=\"http://www.w3.org/2000/svg\" viewBox=\"0 0 {width} {height}\" width=\"{width}\" height=\"{height}\" \
             font-family=\"DejaVu Sans, Verdana, Helvetica, Arial, sans-serif\" fill=\"{INK}\">\n\
             <title>{title}</title>\n<rect width=\"{width}\" height=\"{height}\" fill=\"#ffffff\"/>\n{body}</svg>\n"
        )
    }
}

pub const LEGEND_ROW: f64 = 22.0;

/// The last `most` characters, where there are more.
fn ending(text: &str, most: usize) -> String {
    match text.chars().count().saturating_sub(most) {
        0 => text.into(),
        cut => format!("..{}", text.chars().skip(cut).collect::<String>()),
    }
}

fn stroke(Pen { color, width, dash }: Pen) -> String {
    let mut text = format!(" stroke=\"{color}\" stroke-width=\"{width}\"");
    if !dash.is_empty() {
        let _ = write!(text, " stroke-dasharray=\"{dash}\"");
    }
    text
}

fn escaped(text: &str) -> String {
    let mut out = String::new();
    for c in text.chars() {
        match c {
            '&' => out.push_str("&amp;"),
            '<' => out.push_str("&lt;"),
            '>' => out.push_str("&gt;"),
            // XML has no other control characters.
            c if c.is_control() => out.push(' '),
            c => out.push(c),
        }
    }
    out
}

/// An axis and its ticks.
pub struct Axis {
    from: f64,
    to: f64,
    log: bool,
    ticks: Vec<f64>,
    minor: Vec<f64>,
    /// The digits that tell one tick from the next.
    digits: usize,
}

impl Axis {
    /// From `from` to `to`, both moved outwards to a multiple of the step: the first of the steps,
    /// and of ten times them and so on, that gives at most `most` ticks.
    pub fn stepped(from: f64, to: f64, steps: &[f64], most: usize) -> Axis {
        let (from, to) = if from < to {
            (from, to)
        } else {
            let half = (0.1 * from.abs()).max(0.5);
            (from - half, to + half)
        };
        let mut scale = 1.0;
        let (step, first, last) = 'found: loop {
            for step in steps.iter().map(|step| step * scale) {
                let (first, last) = ((from / step).floor(), (to / step).ceil());
                if last - first <= most as f64 {
                    break 'found (step, first, last);
                }
            }
            scale *= 10.0;
        };
        let ticks = (0..=(last - first) as usize).map(|i| (first + i as f64) * step);
        let steps = first.abs().max(last.abs());
        Axis {
            from: first * step,
            to: last * step,
            log: false,
            ticks: ticks.collect(),
            minor: Vec::new(),
            digits: (steps.log10().floor() as usize + 2).clamp(3, 17),
        }
    }

    /// From `from` to `to`, with ticks at the multiples of a step: `step`, or twice that and so on
    /// where there would be more than ten.
    pub fn fixed(from: f64, to: f64, mut step: f64) -> Axis {
        while (to - from) / step > 10.0 {
            step *= 2.0;
        }
        let (first, last) = ((from / step).ceil() as i64, (to / step).floor() as i64);
        Axis {
            from,
            to,
            log: false,
            ticks: (first..=last).map(|i| i as f64 * step).collect(),
            minor: Vec::new(),
            digits: 3,
        }
    }

    /// The decimal steps that suit a range.
    pub fn decimal(from: f64, to: f64, most: usize) -> Axis {
        let unit = 10f64.powf((to - from).abs().max(1e-12).log10().floor() - 2.0);
        Axis::stepped(from, to, &[unit, 2.0 * unit, 5.0 * unit], most)
    }

    /// Decades, for `from` above 0.
    fn decades(from: f64, to: f64) -> Axis {
        let (low, high) = (from.log10().floor() as i32, to.log10().ceil() as i32);
        let every = ((high - low) / 12 + 1) as usize;
        let inside = |v: &f64| *v >= from * 0.999_999 && *v <= to * 1.000_001;
        let times = |factors: &'static [f64]| {
            let decades = (low..=high).step_by(every);
            decades.flat_map(move |e| factors.iter().map(move |f| f * 10f64.powi(e)))
        };
        let mut ticks: Vec<f64> = times(&[1.0]).filter(inside).collect();
        if ticks.len() < 3 {
            ticks = times(&[1.0, 2.0, 5.0]).filter(inside).collect();
        }
        let minor = if every == 1 {
            times(&[2.0, 3.0, 4.0, 5.0, 6.0, 7.0, 8.0, 9.0])
                .filter(inside)
                .collect()
        } else {
            Vec::new()
        };
        Axis {
            from,
            to,
            log: true,
            ticks,
            minor,
            digits: 3,
        }
    }

    /// An axis for the frequencies of a sweep.
    pub fn frequencies(omega: &[f64]) -> Axis {
        let (from, to) = range(omega.iter().copied(), 1e150).unwrap_or((0.0, 1.0));
        if from > 0.0 && to / from >= 8.0 {
            Axis::decades(from.max(1e-150), to)
        } else {
            Axis::decimal(from, to, 10)
        }
    }

    fn part(&self, v: f64) -> f64 {
        if self.log {
            (v / self.from).ln() / (self.to / self.from).ln()
        } else {
            (v - self.from) / (self.to - self.from)
        }
    }
}

/// The least and the greatest finite value, both cut at `limit`.
pub fn range(values: impl Iterator<Item = f64>, limit: f64) -> Option<(f64, f64)> {
    values
        .filter(|v| v.is_finite())
        .map(|v| v.clamp(-limit, limit))
        .fold(None, |range, v| match range {
            None => Some((v, v)),
            Some((least, greatest)) => Some((v.min(least), v.max(greatest))),
        })
}

/// A frame with two axes.
pub struct Panel {
    pub left: f64,
    pub top: f64,
    pub width: f64,
    pub height: f64,
    pub x: Axis,
    pub y: Axis,
}

impl Panel {
    pub fn at(&self, x: f64, y: f64) -> (f64, f64) {
        // What lies far outside, or nowhere, is cut off anyway; a browser wants numbers of a sane size.
        let far = |part: f64| part.clamp(-50.0, 50.0).max(-50.0);
        (
            self.left + self.width * far(self.x.part(x)),
            self.top + self.height * (1.0 - far(self.y.part(y))),
        )
    }

    fn bottom(&self) -> f64 {
        self.top + self.height
    }

    /// Grid, frame, ticks and labels. Without a label the x axis has no numbers either: the panel
    /// below has them.
    pub fn frame(&self, svg: &mut Svg, x_label: &str, y_label: &str) {
        let right = self.left + self.width;
        for (places, pen) in [(&self.x.minor, FAINT), (&self.x.ticks, GRID)] {
            for &v in places {
                let (x, _) = self.at(v, self.y.from);
                svg.line((x, self.top), (x, self.bottom()), pen);
            }
        }
        for &v in &self.y.ticks {
            let (_, y) = self.at(self.x.from, v);
            svg.line((self.left, y), (right, y), GRID);
            svg.line((self.left - 5.0, y), (self.left, y), Pen::new(INK, 1.0, ""));
            svg.text(
                self.left - 9.0,
                y + 4.0,
                "end",
                12.0,
                &number(v, self.y.digits),
            );
        }
        for &v in &self.x.ticks {
            let (x, _) = self.at(v, self.y.from);
            svg.line(
                (x, self.bottom()),
                (x, self.bottom() + 5.0),
                Pen::new(INK, 1.0, ""),
            );
            if !x_label.is_empty() {
                let label = number(v, self.x.digits);
                svg.text(x, self.bottom() + 19.0, "middle", 12.0, &label);
            }
        }
        let corners = [
            (self.left, self.top),
            (right, self.top),
            (right, self.bottom()),
            (self.left, self.bottom()),
            (self.left, self.top),
        ];
        svg.curve(&corners, Pen::new(INK, 1.0, ""));
        if !x_label.is_empty() {
            let middle = self.left + self.width / 2.0;
            svg.text(middle, self.bottom() + 40.0, "middle", 13.0, x_label);
        }
        svg.upright(self.left - 64.0, self.top + self.height / 2.0, y_label);
    }

    /// Straight lines between the values, which bend where the x axis has decades, broken where a
    /// value is not finite. Where many fall together, the first, the extremes and the last of each
    /// half unit of width stand for them.
    pub fn curve(&self, svg: &mut Svg, values: impl Iterator<Item = (f64, f64)>, pen: Pen) {
        for piece in self.pieces(values) {
            svg.curve(&simpler(&by_column(&piece)), pen);
        }
    }

    /// A curve that may turn back.
    pub fn trace(&self, svg: &mut Svg, values: impl Iterator<Item = (f64, f64)>, pen: Pen) {
        for piece in self.pieces(values) {
            svg.curve(&simpler(&piece), pen);
        }
    }

    /// The lines between the values on the page, cut where a value is not finite.
    fn pieces(&self, values: impl Iterator<Item = (f64, f64)>) -> Vec<Vec<(f64, f64)>> {
        let mut pieces = vec![Vec::new()];
        let mut before = None;
        for (x, y) in values {
            if !x.is_finite() || !y.is_finite() || (self.x.log && x <= 0.0) {
                pieces.push(Vec::new());
                before = None;
                continue;
            }
            let last = pieces.len() - 1;
            if let (Some((x0, y0)), true) = (before, self.x.log) {
                let width = (self.at(x, y).0 - self.at(x0, y0).0).abs();
                let known = (x / x0).is_finite();
                let parts = if known { (width / 4.0) as usize } else { 0 };
                for i in 1..parts {
                    let between = x0 * (x / x0).powf(i as f64 / parts as f64);
                    let way = (between - x0) / (x - x0);
                    pieces[last].push(self.at(between, y0 + way * (y - y0)));
                }
            }
            pieces[last].push(self.at(x, y));
            before = Some((x, y));
        }
        pieces.retain(|piece| piece.len() > 1);
        pieces
    }
}

fn by_column(points: &[(f64, f64)]) -> Vec<(f64, f64)> {
    let mut kept: Vec<(f64, f64)> = Vec::new();
    let mut start = 0;
    while start < points.len() {
        let near = |p: &(f64, f64)| (p.0 - points[start].0).abs() < 0.5;
        let length = points[start..].iter().take_while(|p| near(p)).count();
        let run = &points[start..start + length];
        let by_y = |i: &usize, j: &usize| run[*i].1.total_cmp(&run[*j].1);
        let mut places = vec![
            0,
            (0..length).min_by(by_y).unwrap_or(0),
            (0..length).max_by(by_y).unwrap_or(0),
            length - 1,
        ];
        places.sort_unstable();
        places.dedup();
        kept.extend(places.into_iter().map(|i| run[i]));
        start += length;
    }
    kept
}

/// The points without those that lie nearer than a tenth of a unit to the line between others, by
/// the method of Douglas and Peucker.
fn simpler(points: &[(f64, f64)]) -> Vec<(f64, f64)> {
    let mut kept = vec![false; points.len()];
    kept[0] = true;
    kept[points.len() - 1] = true;
    let mut parts = vec![(0, points.len() - 1)];
    while let Some((first, last)) = parts.pop() {
        let (from, to) = (points[first], points[last]);
        let far = |i: &usize| distance(points[*i], from, to);
        let farthest = (first + 1..last).max_by(|i, j| far(i).total_cmp(&far(j)));
        if let Some(middle) = farthest.filter(|i| far(i) >= 0.1) {
            kept[middle] = true;
            parts.push((first, middle));
            parts.push((middle, last));
        }
    }
    let kept = points.iter().zip(kept).filter(|(_, kept)| *kept);
    kept.map(|(point, _)| *point).collect()
}

/// The distance of a point from the line between two others.
fn distance((x, y): (f64, f64), from: (f64, f64), to: (f64, f64)) -> f64 {
    let (dx, dy) = (to.0 - from.0, to.1 - from.1);
    let length = dx * dx + dy * dy;
    let part = if length > 0.0 {
        (((x - from.0) * dx + (y - from.1) * dy) / length).clamp(0.0, 1.0)
    } else {
        0.0
    };
    (x - from.0 - part * dx).hypot(y - from.1 - part * dy)
}
