//! One panel: axes with their numbers, and curves.

use super::axes::{Linear, Powers};
use super::svg::Svg;

pub const WIDTH: f64 = 360.0;
pub const HEIGHT: f64 = 290.0;
const LEFT: f64 = 60.0;
const ABOVE: f64 = 26.0;
const BELOW: f64 = 44.0;
const GRID: &str = "#e3e6ea";
const AXIS: &str = "#5b6675";

pub struct Curve {
    pub colour: &'static str,
    /// How many there are, and nanoseconds.
    pub points: Vec<(f64, f64)>,
}

pub struct Panel {
    pub title: String,
    /// What the horizontal axis counts.
    pub label: String,
    pub curves: Vec<Curve>,
}

impl Panel {
    pub fn draw(&self, svg: &mut Svg, (x, y): (f64, f64)) {
        let points = || self.curves.iter().flat_map(|curve| &curve.points);
        let counts = Linear::new(points().map(|point| point.0).fold(0.0, f64::max));
        let times = Powers::new(
            points().map(|point| point.1).fold(f64::MAX, f64::min),
            points().map(|point| point.1).fold(0.0, f64::max),
        );
        let along = |count: f64| x + LEFT + counts.at(count) * (WIDTH - LEFT);
        let up = |time: f64| y + HEIGHT - BELOW - times.at(time) * (HEIGHT - ABOVE - BELOW);
        let (left, right) = (x + LEFT, x + WIDTH);
        let (top, bottom) = (y + ABOVE, y + HEIGHT - BELOW);
        svg.text(x, y + 12.0, 14, &self.title);
        for mark in &times.marks {
            svg.line((left, up(*mark)), (right, up(*mark)), GRID);
            svg.anchored(left - 6.0, up(*mark) + 4.0, 11, "end", &written(*mark));
        }
        for mark in &counts.marks {
            svg.line((along(*mark), bottom), (along(*mark), bottom + 4.0), AXIS);
            svg.anchored(along(*mark), bottom + 17.0, 11, "middle", &mark.to_string());
        }
        svg.line((left, bottom), (right, bottom), AXIS);
        svg.line((left, top), (left, bottom), AXIS);
        svg.anchored((left + right) / 2.0, bottom + 36.0, 12, "middle", &self.label);
        for curve in &self.curves {
            let points: Vec<(f64, f64)> =
                curve.points.iter().map(|(count, time)| (along(*count), up(*time))).collect();
            svg.curve(&points, curve.colour);
        }
    }
}

/// A mark of 1, 2 or 5 times a power of ten nanoseconds.
fn written(mark: f64) -> String {
    match mark {
        ..1e3 => format!("{mark} ns"),
        ..1e6 => format!("{} µs", mark / 1e3),
        _ => format!("{} ms", mark / 1e6),
    }
}
