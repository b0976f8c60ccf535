//! The plot, as SVG: ratios for each call and size, and growth on two
//! logarithmic scales.

use crate::cases::{CASES, SIZES};
use crate::figures::{Times, GROWTH_COUNTS, GROWTH_SIZES, SURVEY_SIZES};
use crate::report::grouped;
use std::fmt::Write;

const WIDTH: f64 = 1000.0;
const HEIGHT: f64 = 1010.0;

const INK: &str = "#222222";
const GRID: &str = "#d9d9d9";
const ONE: &str = "#b2182b";
const SHADES: [&str; 3] = ["#9ecae1", "#4292c6", "#08458f"];
const FIRST: &str = "#08458f";
const SECOND: &str = "#d95f02";

/// Where text stands from its point.
#[derive(Clone, Copy)]
enum Anchor {
    Start,
    Middle,
    End,
}

impl Anchor {
    fn word(self) -> &'static str {
        match self {
            Anchor::Start => "start",
            Anchor::Middle => "middle",
            Anchor::End => "end",
        }
    }
}

struct Svg {
    body: String,
}

impl Svg {
    fn push(&mut self, element: std::fmt::Arguments) {
        writeln!(self.body, "{element}").expect("a string takes all");
    }

    fn text(&mut self, x: f64, y: f64, size: u32, anchor: Anchor, text: &str) {
        let anchor = anchor.word();
        self.push(format_args!(
            r#"<text x="{x:.1}" y="{y:.1}" font-size="{size}" text-anchor="{anchor}">{text}</text>"#
        ));
    }

    /// Text with a white edge, which covers a line behind it.
    fn text_over(&mut self, x: f64, y: f64, size: u32, text: &str) {
        self.push(format_args!(
            r##"<text x="{x:.1}" y="{y:.1}" font-size="{size}" paint-order="stroke" stroke="#ffffff" stroke-width="3">{text}</text>"##
        ));
    }

    fn text_up(&mut self, x: f64, y: f64, size: u32, text: &str) {
        self.push(format_args!(
            r#"<text transform="translate({x:.1},{y:.1}) rotate(-90)" font-size="{size}" text-anchor="middle">{text}</text>"#
        ));
    }

    fn line(&mut self, from: (f64, f64), to: (f64, f64), colour: &str, width: f64) {
        let ((x1, y1), (x2, y2)) = (from, to);
        self.push(format_args!(
            r#"<line x1="{x1:.1}" y1="{y1:.1}" x2="{x2:.1}" y2="{y2:.1}" stroke="{colour}" stroke-width="{width}"/>"#
        ));
    }

    fn dashed(&mut self, from: (f64, f64), to: (f64, f64), colour: &str) {
        let ((x1, y1), (x2, y2)) = (from, to);
        self.push(format_args!(
            r#"<line x1="{x1:.1}" y1="{y1:.1}" x2="{x2:.1}" y2="{y2:.1}" stroke="{colour}" stroke-dasharray="4 4"/>"#
        ));
    }

    fn bar(&mut self, x: f64, y: f64, width: f64, height: f64, colour: &str) {
        self.push(format_args!(
            r#"<rect x="{x:.1}" y="{y:.1}" width="{width:.1}" height="{height:.1}" fill="{colour}"/>"#
        ));
    }

    fn dot(&mut self, at: (f64, f64), colour: &str, hollow: bool) {
        let ((x, y), fill) = (at, if hollow { "#ffffff" } else { colour });
        self.push(format_args!(
            r#"<circle cx="{x:.1}" cy="{y:.1}" r="3.5" fill="{fill}" stroke="{colour}" stroke-width="1.5"/>"#
        ));
    }
}

pub fn draw(times: &Times) -> String {
    let mut svg = Svg {
        body: String::new(),
    };
    svg.push(format_args!(
        r#"<svg xmlns="http://www.w3.org/2000/svg" viewBox="0 0 {WIDTH} {HEIGHT}" font-family="sans-serif" fill="{INK}">"#
    ));
    svg.bar(0.0, 0.0, WIDTH, HEIGHT, "#ffffff");
    ratios(&mut svg, times);
    growth(&mut svg, times);
    svg.push(format_args!("</svg>"));
    svg.body
}

// The bars: a group for each call, one bar for each size.

const LABELS: f64 = 185.0;
const BARS_TOP: f64 = 92.0;
const BAR: f64 = 10.0;
const GROUP: f64 = 3.0 * BAR + 9.0;
const BARS_WIDTH: f64 = 370.0;
const BARS_GAP: f64 = 35.0;

fn ratios(svg: &mut Svg, times: &Times) {
    svg.text(
        20.0,
        30.0,
        17,
        Anchor::Start,
        "Time of a call: the library to the others",
    );
    svg.text(
        20.0,
        50.0,
        12,
        Anchor::Start,
        "below 1 the library is faster",
    );
    for (i, (size, shade)) in SIZES.into_iter().zip(SHADES).enumerate() {
        let x = LABELS + BARS_WIDTH + BARS_GAP + 100.0 * i as f64;
        svg.bar(x, 39.0, 13.0, 13.0, shade);
        let name = format!("{} bytes", grouped(size as f64));
        svg.text(x + 18.0, 50.0, 12, Anchor::Start, &name);
    }
    for (row, case) in CASES.iter().enumerate() {
        let y = BARS_TOP + GROUP * (row as f64 + 0.5) + 1.0;
        svg.text(LABELS - 10.0, y, 12, Anchor::End, case.title);
    }
    let greatest = times.ratios.iter().flatten().flatten();
    let greatest = greatest.map(|range| range.greatest).fold(1.0, f64::max);
    // Room for the figure behind the longest bar.
    let most = ((greatest * 1.12 + 0.05) * 4.0).ceil() / 4.0;
    for (baseline, name) in ["to the Rust implementation", "to portable C"]
        .iter()
        .enumerate()
    {
        let left = LABELS + baseline as f64 * (BARS_WIDTH + BARS_GAP);
        svg.text(left, BARS_TOP - 12.0, 13, Anchor::Start, name);
        bars(svg, times, baseline, left, most);
    }
}

fn bars(svg: &mut Svg, times: &Times, baseline: usize, left: f64, most: f64) {
    let bottom = BARS_TOP + GROUP * CASES.len() as f64;
    let at = |ratio: f64| left + ratio / most * BARS_WIDTH;
    let step = if most > 2.0 { 0.5 } else { 0.25 };
    for tick in 0..=(most / step) as usize {
        let ratio = tick as f64 * step;
        svg.line((at(ratio), BARS_TOP - 4.0), (at(ratio), bottom), GRID, 1.0);
        let label = format!("{ratio}");
        svg.text(at(ratio), bottom + 15.0, 11, Anchor::Middle, &label);
    }
    let mut labels = Vec::new();
    for (row, ranges) in times.ratios.iter().enumerate() {
        for (i, shade) in SHADES.into_iter().enumerate() {
            let range = ranges[i][baseline];
            let ratio = (range.least + range.greatest) / 2.0;
            if ratio.is_nan() {
                continue; // not timed
            }
            let y = BARS_TOP + GROUP * row as f64 + BAR * i as f64;
            svg.bar(left, y, at(ratio) - left, BAR - 1.0, shade);
            labels.push((at(ratio) + 4.0, y + BAR - 2.0, format!("{ratio:.2}")));
        }
    }
    svg.line((at(1.0), BARS_TOP - 4.0), (at(1.0), bottom), ONE, 1.5);
    for (x, y, label) in labels {
        svg.text_over(x, y, 9, &label);
    }
    svg.text(
        left + BARS_WIDTH / 2.0,
        bottom + 32.0,
        12,
        Anchor::Middle,
        "ratio of times",
    );
}

/// A power of ten as an axis shows it.
fn tick(value: f64) -> String {
    if value < 1.0 {
        format!("{value}")
    } else {
        grouped(value)
    }
}

// Growth: two panels with logarithmic scales.

const PANEL_TOP: f64 = 740.0;
const PANEL_HEIGHT: f64 = 210.0;
const PANEL_WIDTH: f64 = 390.0;

struct Panel {
    left: f64,
    x_range: (f64, f64),
    y_range: (f64, f64),
}

struct Series {
    name: String,
    points: Vec<(f64, f64)>,
}

impl Panel {
    /// The scales: from the least power of ten to the greatest around the times.
    fn new(left: f64, all: &[Series]) -> Panel {
        let points = || all.iter().flat_map(|series| &series.points);
        let least = |values: &mut dyn Iterator<Item = f64>| values.fold(f64::INFINITY, f64::min);
        let greatest = |values: &mut dyn Iterator<Item = f64>| values.fold(0.0, f64::max);
        let (mut xs, mut ys) = (points().map(|p| p.0), points().map(|p| p.1));
        let x_range = (least(&mut xs), greatest(&mut points().map(|p| p.0)));
        let low = 10f64.powf(least(&mut ys).log10().floor());
        let high = 10f64.powf(greatest(&mut points().map(|p| p.1)).log10().ceil());
        Panel {
            left,
            x_range,
            y_range: (low, high),
        }
    }

    fn at(&self, (x, y): (f64, f64)) -> (f64, f64) {
        let part = |value: f64, (low, high): (f64, f64)| (value / low).ln() / (high / low).ln();
        (
            self.left + part(x, self.x_range) * PANEL_WIDTH,
            PANEL_TOP + PANEL_HEIGHT * (1.0 - part(y, self.y_range)),
        )
    }

    fn axes(&self, svg: &mut Svg, ticks: &[f64], x_label: &str) {
        let ((x_low, x_high), (y_low, y_high)) = (self.x_range, self.y_range);
        for &x in ticks {
            svg.line(self.at((x, y_low)), self.at((x, y_high)), GRID, 1.0);
            let (tx, ty) = self.at((x, y_low));
            svg.text(tx, ty + 15.0, 11, Anchor::Middle, &grouped(x));
        }
        for power in 0..=(y_high / y_low).log10().round() as i32 {
            let y = y_low * 10f64.powi(power);
            svg.line(self.at((x_low, y)), self.at((x_high, y)), GRID, 1.0);
            let (tx, ty) = self.at((x_low, y));
            svg.text(tx - 6.0, ty + 4.0, 11, Anchor::End, &tick(y));
        }
        let (middle, bottom) = (self.left + PANEL_WIDTH / 2.0, PANEL_TOP + PANEL_HEIGHT);
        svg.text(middle, bottom + 33.0, 12, Anchor::Middle, x_label);
        svg.text_up(
            self.left - 48.0,
            PANEL_TOP + PANEL_HEIGHT / 2.0,
            12,
            "microseconds",
        );
    }

    /// A line in proportion to x through a point of the curve, drawn within the
    /// panel.
    fn proportion(&self, svg: &mut Svg, (x, y): (f64, f64)) {
        let start = (self.y_range.0 / y * x).max(self.x_range.0);
        svg.dashed(self.at((start, y * start / x)), self.at((x, y)), "#888888");
    }

    fn curve(&self, svg: &mut Svg, series: &Series, row: usize, colour: &str) {
        let points: Vec<_> = series.points.iter().map(|&point| self.at(point)).collect();
        for pair in points.windows(2) {
            svg.line(pair[0], pair[1], colour, 1.5);
        }
        for &point in &points {
            svg.dot(point, colour, row == 1);
        }
        let (x, y) = (self.left + 18.0, PANEL_TOP + 18.0 + 18.0 * row as f64);
        svg.dot((x, y), colour, row == 1);
        svg.text(x + 10.0, y + 4.0, 12, Anchor::Start, &series.name);
    }

    fn draw(&self, svg: &mut Svg, all: &[Series], ticks: &[f64], x_label: &str) {
        self.axes(svg, ticks, x_label);
        for series in all {
            self.proportion(svg, series.points[series.points.len() - 1]);
        }
        svg.bar(self.left + 6.0, PANEL_TOP + 6.0, 185.0, 61.0, "#ffffff");
        for (row, (series, colour)) in all.iter().zip([FIRST, SECOND]).enumerate() {
            self.curve(svg, series, row, colour);
        }
        let (x, y) = (self.left + 10.0, PANEL_TOP + 54.0);
        svg.dashed((x, y), (x + 16.0, y), "#888888");
        svg.text(x + 20.0, y + 4.0, 12, Anchor::Start, "in proportion");
    }
}

fn growth(svg: &mut Svg, times: &Times) {
    let title = "Growth of the library's calls (both scales logarithmic)";
    svg.text(20.0, PANEL_TOP - 40.0, 17, Anchor::Start, title);
    let calls = ["seal", "judge, whole"].map(String::from);
    let by_size = series(&calls, &GROWTH_SIZES, &times.by_size);
    let ticks = [16.0, 64.0, 256.0, 1024.0, 4096.0];
    let left = 80.0;
    panel_title(svg, left, "a sector, against its size");
    Panel::new(left, &by_size).draw(svg, &by_size, &ticks, "s, bytes of a sector");

    let surveys = SURVEY_SIZES.map(|size| format!("survey, {size} bytes a sector"));
    let by_count = series(&surveys, &GROWTH_COUNTS, &times.by_count);
    let ticks = GROWTH_COUNTS.map(|count| count as f64);
    let left = WIDTH - PANEL_WIDTH - 30.0;
    panel_title(svg, left, "a survey, against the sectors");
    Panel::new(left, &by_count).draw(svg, &by_count, &ticks, "n, sectors of the volume");
}

/// A line for each name: column i of the rows, in microseconds, against `along`.
fn series<const N: usize>(names: &[String], along: &[usize], rows: &[[f64; N]]) -> Vec<Series> {
    let points = |i: usize| {
        along
            .iter()
            .zip(rows)
            .map(move |(&x, row)| (x as f64, row[i] / 1000.0))
    };
    let line = |(i, name): (usize, &String)| Series {
        name: name.clone(),
        points: points(i).collect(),
    };
    names.iter().enumerate().map(line).collect()
}

fn panel_title(svg: &mut Svg, left: f64, title: &str) {
    svg.text(left, PANEL_TOP - 12.0, 13, Anchor::Start, title);
}
