//! docs/performance.svg: what a call, a transaction and a verdict cost as things grow, curves side
//! by side.

mod axes;
mod panel;
mod svg;

use crate::growth::Point;
use crate::page::Measured;
use panel::{Curve, Panel};
use std::{fs, io};
use svg::Svg;

const PICTURE: &str = concat!(env!("CARGO_MANIFEST_DIR"), "/../docs/performance.svg");
const MARGIN: f64 = 24.0;
/// Where the legend's first line lies, and how far its lines are apart.
const LEGEND: f64 = 88.0;
const LEGEND_LINE: f64 = 22.0;
const TOP: f64 = 140.0;
const BETWEEN: f64 = 28.0;
const COLUMNS: usize = 3;

/// Each contender's name and colour, the same in every panel.
const STORE: (&str, &str) = ("this store, this judge", "#c0392b");
const MODEL: (&str, &str) = ("the model on the same block, its judge", "#2f6db5");
const TABLES: (&str, &str) = ("the model on tables of its own", "#8fb8de");
const SQLITE: (&str, &str) = ("SQLite in memory", "#3f8f4f");
const FLOOR: (&str, &str) = ("floor: one plain pass over the words in use", "#8a8f98");

pub fn write(measured: &Measured) -> io::Result<()> {
    fs::write(PICTURE, picture(&panels(measured)))
}

fn curve((_, colour): (&str, &'static str), points: Vec<(f64, f64)>) -> Curve {
    Curve { colour, points }
}

/// A call against how many there are of something.
fn of_calls(title: &str, label: &str, points: &[Point]) -> Panel {
    let along = |time: fn(&Point) -> f64| -> Vec<(f64, f64)> {
        let at = |point: &Point| (point.count as f64, time(point));
        points.iter().map(at).collect()
    };
    Panel {
        title: title.to_owned(),
        label: label.to_owned(),
        curves: vec![
            curve(FLOOR, along(|point| point.row.floor.quickest)),
            curve(TABLES, along(|point| point.row.tables.quickest)),
            curve(MODEL, along(|point| point.row.model.quickest)),
            curve(STORE, along(|point| point.row.store.quickest)),
        ],
    }
}

fn of_sheets(measured: &Measured) -> Panel {
    let rows = &measured.sheet;
    let versions = |row: &crate::sheet::Row| row.versions as f64;
    let sqlite = rows.iter().filter_map(|row| Some((versions(row), row.sqlite?.time.quickest)));
    let mut curves = vec![
        curve(MODEL, rows.iter().map(|row| (versions(row), row.model.quickest)).collect()),
        curve(STORE, rows.iter().map(|row| (versions(row), row.store.quickest)).collect()),
    ];
    let sqlite: Vec<(f64, f64)> = sqlite.collect();
    if !sqlite.is_empty() {
        curves.push(curve(SQLITE, sqlite));
    }
    Panel {
        title: "Write and read 4 items of the small sheet".to_owned(),
        label: "stored versions (4 more after each write)".to_owned(),
        curves,
    }
}

fn of_logs(measured: &Measured) -> Panel {
    let rows = &measured.logs;
    let kilobytes = |row: &crate::judges::Row| row.bytes as f64 / 1024.0;
    Panel {
        title: "Judge a log of writes and reads of 12 items".to_owned(),
        label: "size of the log, in KiB".to_owned(),
        curves: vec![
            curve(MODEL, rows.iter().map(|row| (kilobytes(row), row.model.quickest)).collect()),
            curve(STORE, rows.iter().map(|row| (kilobytes(row), row.judge.quickest)).collect()),
        ],
    }
}

fn panels(measured: &Measured) -> Vec<Panel> {
    vec![
        of_calls("Start a read of 4 of 64 items", "stored versions", &measured.versions),
        of_calls("Start a read of 4 of 64 items", "messages in flight", &measured.messages),
        of_calls("Start a read of all items", "items, each written once", &measured.items),
        of_calls(
            "Clear away what nothing names",
            "stored versions, of which 64 stay",
            &measured.clearings.versions,
        ),
        of_sheets(measured),
        of_logs(measured),
    ]
}

fn picture(panels: &[Panel]) -> String {
    let rows = panels.len().div_ceil(COLUMNS);
    let width = left(COLUMNS) - BETWEEN + MARGIN;
    let height = TOP + rows as f64 * (panel::HEIGHT + BETWEEN);
    let mut svg = Svg::new(width, height);
    svg.text(MARGIN, 36.0, 20, "What it costs, and what it is held against");
    let axes = "The quickest of interleaved rounds; time on a scale of powers of ten, so that equal distances are equal ratios.";
    svg.text(MARGIN, 60.0, 13, axes);
    legend(&mut svg);
    for (place, panel) in panels.iter().enumerate() {
        let row = (place / COLUMNS) as f64;
        panel.draw(&mut svg, (left(place % COLUMNS), TOP + row * (panel::HEIGHT + BETWEEN)));
    }
    svg.end()
}

/// Where a column of panels starts.
fn left(column: usize) -> f64 {
    MARGIN + column as f64 * (panel::WIDTH + BETWEEN)
}

/// Lines of as many names as there are columns.
fn legend(svg: &mut Svg) {
    for (place, (name, colour)) in [STORE, MODEL, TABLES, SQLITE, FLOOR].iter().enumerate() {
        let x = left(place % COLUMNS);
        let y = LEGEND + LEGEND_LINE * (place / COLUMNS) as f64;
        svg.curve(&[(x + 3.0, y), (x + 39.0, y)], colour);
        svg.text(x + 49.0, y + 4.0, 13, name);
    }
}
