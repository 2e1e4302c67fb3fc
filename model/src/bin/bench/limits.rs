//! The limits, and whether what was measured meets them: the quickest rounds are held to them.

use crate::call::Row;
use crate::cases::{
    BEFORE_FETCHING, BEFORE_THE_LAST, CHECK, CHECK_OF_A_FRESH_SHEET, COMMIT_BESIDE_FETCHING,
    COMMIT_BESIDE_THE_LAST, COMPARE, COMPARE_ALIKE, FAST_READ_OF_4, FAST_READ_OF_64,
    FETCHING_AGAIN, HAND_OVER, LAST_FIRST_REPLY, MIXED_OF_4, READ_OF_4, READ_OF_64,
};
use crate::checking::Checks;
use crate::clock::Figure;
use crate::page::{time, Measured};
use crate::{judges, sheet};

/// A limit, what was found of it, and whether that meets it; nothing where it wasn't measured.
pub struct Limit {
    pub limit: String,
    pub quickest: String,
    pub median: String,
    pub met: Option<bool>,
}

/// On the busy block the check alone is at most so many floors, a call so many floors and so many
/// times the model.
const CHECK_FLOORS: f64 = 2.8;
const FLOORS: f64 = 3.5;
const MODELS: f64 = 1.0;
/// Where the busy block has room for a read of 64 items, it takes at most so many times one of 4
/// (document 02, P3).
const WIDE_READS: f64 = 1.5;
/// On the busy block the start of a fast read takes at most so many times that of a read of as many
/// items, and the first reply that ends the first part of one of 64 items so many times the one
/// before it, and so many times a commit on the same block. Document 02's P7 has no limits: these
/// are our own.
const FAST_STARTS: f64 = 1.0;
const LAST_REPLIES: f64 = 1.5;
const COMMITS: f64 = 1.25;
/// On the small sheet a mixed transaction takes at most so many times a read and then a write of
/// the same items. Document 02's P8 has no limits: this one and the start's floors are our own.
const IN_ONE: f64 = 1.0;
/// Floors of the check of a fresh small sheet before stamps were gathered (on an AMD EPYC, quickest
/// round, as its library was linked then), and how many times as many it may take. The two
/// libraries, aligned alike and in one program: docs/changes/ready.md.
const FRESH_SHEET_WAS: f64 = 3.34;
const FRESH_SHEET: f64 = 1.1;
/// A clearing of the busy block, with a fast read under way or without, is at most so many floors
/// (document 02, P5).
const CLEARING_FLOORS: f64 = 40.0;
/// A check of the busiest block that the store's own calls leave is at most so many floors, and a
/// check of any block so many. Document 02's P9 has no limits: these are our own.
const BUSIEST_FLOORS: f64 = 30.0;
const ANY_FLOORS: f64 = 100.0;
/// A write and a read on a fresh small sheet are so many times as fast as SQLite's, and over a life
/// with clearings no slower.
const FASTER: f64 = 2.0;
pub const NOT_SLOWER: f64 = 1.0;
/// On the busy block a hand-over and a comparison are at most so many times the check alone.
const CHECKS: f64 = 1.2;
/// The slowest log takes at most 20 ms, and so many times the model's judge; the slowest with
/// hand-overs among its lines so many times the slowest without.
const SLOWEST: f64 = 20e6;
const JUDGES: f64 = 8.0;
const HANDED_OVER: f64 = 1.5;

pub fn limits(measured: &Measured) -> Vec<Limit> {
    let busy = &measured.busy;
    let check = named(busy, CHECK);
    let fresh_sheet = named(&measured.small, CHECK_OF_A_FRESH_SHEET);
    let mut limits = vec![
        at_most(
            format!("busy block: the check alone at most {CHECK_FLOORS} floors"),
            check.floors,
            CHECK_FLOORS,
        ),
        worst(
            format!("busy block: a call at most {FLOORS} floors"),
            busy,
            |row| row.floors,
            FLOORS,
        ),
        worst(
            format!("busy block: a call at most {MODELS:.1} times the model on the same block"),
            busy,
            |row| row.models,
            MODELS,
        ),
        at_most(
            format!(
                "busy block with room for it: a read of 64 items at most {WIDE_READS} times a read \
                 of 4 items"
            ),
            wide_read(&measured.busy_with_room, READ_OF_64),
            WIDE_READS,
        ),
        at_most(
            format!(
                "fresh small sheet: the check alone at most {FRESH_SHEET} times what it was, \
                 {FRESH_SHEET_WAS} floors"
            ),
            fresh_sheet.floors,
            FRESH_SHEET * FRESH_SHEET_WAS,
        ),
    ];
    limits.extend(of_fast_reads(measured));
    limits.extend([HAND_OVER, COMPARE, COMPARE_ALIKE].map(|name| {
        at_most(
            format!("busy block, {name}: at most {CHECKS} times the check alone"),
            times(named(busy, name).store, check.store),
            CHECKS,
        )
    }));
    let clearings = &measured.clearings;
    for (block, row) in [
        ("busy block", &clearings.busy),
        ("busy block with a fast read under way", &clearings.busy_and_fast),
    ] {
        limits.push(at_most(
            format!("{block}: a clearing at most {CLEARING_FLOORS} floors"),
            row.floors,
            CLEARING_FLOORS,
        ));
    }
    limits.extend(of_checks(&measured.checks));
    limits.push(as_fast(
        format!(
            "small sheet: a write and a read of 4 items at least {FASTER} times faster than SQLite"
        ),
        &measured.sheets.fresh,
        FASTER,
    ));
    limits.push(as_fast(
        format!(
            "small sheet: a write and a fast read of 4 items at least {FASTER} times faster than \
             SQLite"
        ),
        &measured.sheets.fresh_fast,
        FASTER,
    ));
    limits.extend(of_mixed_transactions(measured));
    limits.push(as_fast(
        "small sheet, its life with a clearing whenever 9 refuses a write: not slower than SQLite"
            .to_owned(),
        &measured.sheets.cleared,
        NOT_SLOWER,
    ));
    limits.extend(of_the_judge(&measured.slowest));
    limits
}

fn of_fast_reads(measured: &Measured) -> [Limit; 7] {
    let starts = [
        ("busy block", &measured.busy, 4, FAST_READ_OF_4, READ_OF_4),
        ("busy block with room for it", &measured.busy_with_room, 64, FAST_READ_OF_64, READ_OF_64),
    ];
    let [few, many] = starts.map(|(block, rows, items, fast, ordinary)| {
        at_most(
            format!(
                "{block}: the start of a fast read of {items} items at most {FAST_STARTS:.1} times \
                 that of a read"
            ),
            times(named(rows, fast).store, named(rows, ordinary).store),
            FAST_STARTS,
        )
    });
    let rows = &measured.busy_and_fast;
    let last_two = [(BEFORE_THE_LAST, LAST_FIRST_REPLY), (BEFORE_FETCHING, FETCHING_AGAIN)];
    let [ends, goes_on] = last_two.map(|(before, last)| {
        at_most(
            format!("busy block, {last}: at most {LAST_REPLIES} times the first reply before it"),
            times(named(rows, last).store, named(rows, before).store),
            LAST_REPLIES,
        )
    });
    let commits =
        [(COMMIT_BESIDE_THE_LAST, LAST_FIRST_REPLY), (COMMIT_BESIDE_FETCHING, FETCHING_AGAIN)];
    let [ends_beside, goes_on_beside] = commits.map(|(commit, last)| {
        at_most(
            format!("busy block, {last}: at most {COMMITS} times a commit on the same block"),
            times(named(rows, last).store, named(rows, commit).store),
            COMMITS,
        )
    });
    let all = worst(
        format!("busy block with a fast read under way: a call at most {FLOORS} floors"),
        rows,
        |row| row.floors,
        FLOORS,
    );
    [few, many, ends, goes_on, ends_beside, goes_on_beside, all]
}

fn of_mixed_transactions(measured: &Measured) -> [Limit; 4] {
    let sheet::Rows { read_then_write, mixed, .. } = &measured.sheets;
    [
        at_most(
            format!("busy block, {MIXED_OF_4}: at most {FLOORS} floors"),
            named(&measured.busy, MIXED_OF_4).floors,
            FLOORS,
        ),
        worst(
            format!("busy block with a mixed one under way: a call at most {FLOORS} floors"),
            &measured.busy_and_mixed,
            |row| row.floors,
            FLOORS,
        ),
        at_most(
            format!(
                "small sheet: a mixed transaction that reads and writes 4 items at most \
                 {IN_ONE:.1} times a read and then a write"
            ),
            times(mixed.store, read_then_write.store),
            IN_ONE,
        ),
        as_fast(
            "small sheet: a mixed transaction that reads and writes 4 items not slower than SQLite"
                .to_owned(),
            mixed,
            NOT_SLOWER,
        ),
    ]
}

fn of_checks(checks: &Checks) -> [Limit; 2] {
    let of_own = checks.own.iter().map(|row| row.floors);
    let of_any = checks.own.iter().chain(&checks.made).map(|row| row.floors);
    [
        at_most(
            format!(
                "the slowest block found of the store's own calls: a check at most \
                 {BUSIEST_FLOORS} floors"
            ),
            greatest(of_own),
            BUSIEST_FLOORS,
        ),
        at_most(
            format!("the slowest block found of any: a check at most {ANY_FLOORS} floors"),
            greatest(of_any),
            ANY_FLOORS,
        ),
    ]
}

fn of_the_judge(slowest: &judges::Slowest) -> [Limit; 3] {
    let rows = slowest.all();
    let [times, models] = [rows.map(|row| row.judge), rows.map(|row| row.models)].map(greatest);
    [
        Limit {
            limit: "judge: the slowest log at most 20 ms".to_owned(),
            quickest: time(times.quickest),
            median: time(times.median),
            met: Some(times.quickest <= SLOWEST),
        },
        at_most(
            format!("judge: the slowest log at most {JUDGES} times the model's judge"),
            models,
            JUDGES,
        ),
        at_most(
            format!(
                "judge: the slowest log with hand-overs among its lines at most {HANDED_OVER} \
                 times the slowest without"
            ),
            slowest.times,
            HANDED_OVER,
        ),
    ]
}

fn greatest(figures: impl IntoIterator<Item = Figure>) -> Figure {
    let of_both = |most: Figure, figure: Figure| Figure {
        quickest: most.quickest.max(figure.quickest),
        median: most.median.max(figure.median),
    };
    figures.into_iter().fold(Figure { quickest: 0.0, median: 0.0 }, of_both)
}

fn named<'a>(rows: &'a [Row], name: &str) -> &'a Row {
    let row = rows.iter().find(|row| row.name == name);
    row.expect("a call of the name")
}

/// How many times a read of 4 items the start of that name is.
fn wide_read(rows: &[Row], name: &str) -> Figure {
    let [wide, narrow] = [name, READ_OF_4].map(|name| named(rows, name).store);
    times(wide, narrow)
}

/// How many times the other the one takes.
fn times(one: Figure, other: Figure) -> Figure {
    Figure { quickest: one.quickest / other.quickest, median: one.median / other.median }
}

fn ratio(ratio: f64) -> String {
    format!("{ratio:.2} times")
}

fn at_most(limit: String, found: Figure, most: f64) -> Limit {
    Limit {
        limit,
        quickest: ratio(found.quickest),
        median: ratio(found.median),
        met: Some(found.quickest <= most),
    }
}

/// How many times as fast as SQLite the store is.
fn as_fast(limit: String, row: &sheet::Row, least: f64) -> Limit {
    let found = row.sqlite.map(|sqlite| sqlite.as_fast);
    let told = |times: f64| format!("{} as fast", ratio(times));
    Limit {
        limit,
        quickest: found.map_or("not installed".to_owned(), |found| told(found.quickest)),
        median: found.map_or(String::new(), |found| told(found.median)),
        met: found.map(|found| found.quickest >= least),
    }
}

/// The call with the greatest ratio, and how many are over the limit.
fn worst(limit: String, rows: &[Row], of: impl Fn(&Row) -> Figure, most: f64) -> Limit {
    let worst = |part: fn(Figure) -> f64| {
        let greatest = rows.iter().max_by(|a, b| part(of(a)).total_cmp(&part(of(b))));
        let greatest = greatest.expect("a call");
        let over = rows.iter().filter(|row| part(of(row)) > most).count();
        let (found, name, all) = (ratio(part(of(greatest))), greatest.name, rows.len());
        (format!("{found} ({name}); {over} of {all} over"), over)
    };
    let (quickest, over) = worst(|figure| figure.quickest);
    Limit { limit, quickest, median: worst(|figure| figure.median).0, met: Some(over == 0) }
}
