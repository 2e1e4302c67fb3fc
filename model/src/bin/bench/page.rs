//! docs/PERFORMANCE.md: the text of page.md, with what was measured in its places.

mod cannot;

use crate::checking::{self, Checks};
use crate::clearing::Clearings;
use crate::clock::Figure;
use crate::growth::Point;
use crate::limits::limits;
use crate::sheet::CALLS;
use crate::{call, judges, machine, sheet};
use cannot::{cannot, in_lines};
use std::fmt::Write as _;
use std::{fs, io};

const PAGE: &str = concat!(env!("CARGO_MANIFEST_DIR"), "/../docs/PERFORMANCE.md");
const TEXT: &str = include_str!("page.md");

/// Everything that one run measures.
pub struct Measured {
    pub small: Vec<call::Row>,
    pub busy: Vec<call::Row>,
    /// On the busy block before its widest read.
    pub busy_with_room: Vec<call::Row>,
    /// On that block with a fast read of all items under way.
    pub busy_and_fast: Vec<call::Row>,
    /// On that block with a mixed transaction under way.
    pub busy_and_mixed: Vec<call::Row>,
    pub clearings: Clearings,
    pub checks: Checks,
    /// On a fresh sheet, and over the life of one.
    pub sheets: sheet::Rows,
    pub slowest: judges::Slowest,
    pub versions: Vec<Point>,
    pub messages: Vec<Point>,
    pub items: Vec<Point>,
    pub sheet: Vec<sheet::Row>,
    pub logs: Vec<judges::Row>,
}

/// Nanoseconds as people write them.
pub fn time(nanoseconds: f64) -> String {
    match nanoseconds {
        ..1e3 => format!("{nanoseconds:.0} ns"),
        ..1e5 => format!("{:.2} µs", nanoseconds / 1e3),
        ..1e6 => format!("{:.0} µs", nanoseconds / 1e3),
        _ => format!("{:.2} ms", nanoseconds / 1e6),
    }
}

fn times(figure: Figure) -> String {
    format!("{} ({})", time(figure.quickest), time(figure.median))
}

fn ratios(figure: Figure) -> String {
    format!("{:.2} ({:.2})", figure.quickest, figure.median)
}

/// The whole page.
pub fn page(measured: &Measured) -> String {
    let tables = [
        calls_table("The small sheet: 2 clients, 2 partitions, 4 items", &measured.small),
        calls_table(
            "The busy block: 8 clients, 8 partitions, 64 items, 500 versions, 120 messages",
            &measured.busy,
        ),
        calls_table(
            "The busy block before client 7 reads all 64 items: 500 versions, 56 messages",
            &measured.busy_with_room,
        ),
        calls_table(
            "The same block with client 7's fast read of all 64 items under way",
            &measured.busy_and_fast,
        ),
        calls_table(
            "The same block with client 7's mixed transaction of 60 items read and 8 written",
            &measured.busy_and_mixed,
        ),
        calls_table("A clearing", measured.clearings.rows()),
        checks_table(&measured.checks),
        sheets_table(&measured.sheets),
        judges_table(&measured.slowest),
    ];
    TEXT.replace("{machine}", &machine::class())
        .replace("{limits}", &limits_table(measured))
        .replace("{clearing}", &clearing(measured))
        .replace("{own_blocks}", &measured.checks.tried[0].to_string())
        .replace("{made_blocks}", &measured.checks.tried[1..].iter().sum::<usize>().to_string())
        .replace("{checking}", &checking(&measured.checks))
        .replace("{cannot}", &cannot(measured))
        .replace("{tables}\n", &tables.join("\n"))
}

pub fn write(page: &str) -> io::Result<()> {
    fs::write(PAGE, page)
}

fn limits_table(measured: &Measured) -> String {
    let head = ["Limit", "Found, quickest rounds", "Medians", ""];
    let mut text = "## Limits\n\n".to_owned() + &heading(&head, "|---|---|---|---|");
    for limit in limits(measured) {
        let met = match limit.met {
            Some(true) => "met",
            Some(false) => "missed",
            None => "not measured",
        };
        line(&mut text, &[&limit.limit, &limit.quickest, &limit.median, met]);
    }
    text
}

/// A clearing where all slots are taken, beside one of the busy block, with a fast read under way
/// or without.
fn clearing(measured: &Measured) -> String {
    let Clearings { busy, busy_and_fast, slots_taken, .. } = &measured.clearings;
    let [worst, busy, fast] =
        [slots_taken, busy, busy_and_fast].map(|row| time(row.store.quickest));
    format!("{worst} where the busy block takes {busy}, and with a fast read under way {fast}")
}

/// The slowest block of the store's own calls, and the slowest of any.
fn checking(checks: &Checks) -> String {
    let told = |whose: &str, row: &checking::Row| {
        let (time, floors) = (time(row.store.quickest), row.floors.quickest);
        let checking::Row { what, why, .. } = row;
        format!(
            "The slowest {whose} takes {time}, {floors:.0} floors: {what}. What makes it slow: \
             {why}."
        )
    };
    let own = told("of the store's own calls", most_floors(&checks.own));
    let any = told("of any", most_floors(checks.own.iter().chain(&checks.made)));
    in_lines(&format!("{own} {any}"))
}

fn most_floors<'a>(rows: impl IntoIterator<Item = &'a checking::Row>) -> &'a checking::Row {
    let floors = |row: &checking::Row| row.floors.quickest;
    let most = rows.into_iter().max_by(|one, other| floors(one).total_cmp(&floors(other)));
    most.expect("a row")
}

fn calls_table<'a>(title: &str, rows: impl IntoIterator<Item = &'a call::Row>) -> String {
    let head = [
        "Call",
        "Store",
        "Model on the block",
        "Model on its tables",
        "Floor",
        "Store / model on the block",
        "Store / model on its tables",
        "Store / floor",
    ];
    let mut text = format!("## {title}\n\n") + &heading(&head, "|---|--:|--:|--:|--:|--:|--:|--:|");
    for row in rows {
        let [store, model, tables, floor] =
            [row.store, row.model, row.tables, row.floor].map(times);
        let [to_model, to_tables, to_floor] =
            [row.models, row.models_on_tables, row.floors].map(ratios);
        line(
            &mut text,
            &[row.name, &store, &model, &tables, &floor, &to_model, &to_tables, &to_floor],
        );
    }
    text
}

fn checks_table(checks: &Checks) -> String {
    let head = [
        "Block",
        "What makes it slow",
        "Answer",
        "Store",
        "Model on the block",
        "Floor",
        "Store / model on the block",
        "Store / floor",
    ];
    let mut text = "## A check of a block: the slowest that are found\n\n".to_owned()
        + &heading(&head, "|---|---|---|--:|--:|--:|--:|--:|");
    for row in checks.rows() {
        let answer = if row.is_accepted { "accepted" } else { "19" };
        let [store, model, floor] = [row.store, row.model, row.floor].map(times);
        let [to_model, to_floor] = [row.models, row.floors].map(ratios);
        line(
            &mut text,
            &[&row.what, row.why, answer, &store, &model, &floor, &to_model, &to_floor],
        );
    }
    text
}

fn sheets_table(rows: &sheet::Rows) -> String {
    let head = [
        "",
        "Store",
        "Its checks alone",
        "Model on the block",
        "Floor",
        "SQLite in memory",
        "Store / floor",
        "Checks / floor",
        "SQLite / store",
    ];
    let mut text = format!(
        "## A write and a read of 4 items on the small sheet, shown: {CALLS} calls, and the \
         clearings\n\n"
    ) + &heading(&head, "|---|--:|--:|--:|--:|--:|--:|--:|--:|");
    for row in rows.all() {
        let [store, checks, model, floor] =
            [row.store, row.checks, row.model, row.floor].map(times);
        let [to_floor, checks_to_floor] = [row.floors, row.floors_of_checks].map(ratios);
        let (sqlite, to_store) = match row.sqlite {
            Some(sqlite) => (times(sqlite.time), ratios(sqlite.as_fast)),
            None => ("not installed".to_owned(), String::new()),
        };
        line(
            &mut text,
            &[
                &row.name,
                &store,
                &checks,
                &model,
                &floor,
                &sqlite,
                &to_floor,
                &checks_to_floor,
                &to_store,
            ],
        );
    }
    text
}

fn judges_table(slowest: &judges::Slowest) -> String {
    let head = ["Log", "Judge", "Model's judge", "Judge / model"];
    let mut text = "## The judge, on the slowest logs found\n\n".to_owned()
        + &heading(&head, "|---|--:|--:|--:|");
    for row in slowest.all() {
        let judges::Shape { writes, width, are_mixed, hand_overs, shown } = row.shape;
        let some = match hand_overs.count {
            0 => String::new(),
            count => format!("{count} hand-overs, "),
        };
        let [above, below] = if hand_overs.above { [&*some, ""] } else { ["", &*some] };
        let mixed = match are_mixed {
            true => format!(", each in a mixed transaction that reads {shown}"),
            false => String::new(),
        };
        let bytes = row.bytes;
        let log = format!(
            "{above}{writes} writes of {width} items{mixed}, {below}then reads of {shown}: {bytes} \
             bytes"
        );
        let [judge, model] = [row.judge, row.model].map(times);
        line(&mut text, &[&log, &judge, &model, &ratios(row.models)]);
    }
    text
}

fn heading(cells: &[&str], rule: &str) -> String {
    let mut text = String::new();
    line(&mut text, cells);
    text + rule + "\n"
}

fn line(text: &mut String, cells: &[&str]) {
    writeln!(text, "| {} |", cells.join(" | ")).expect("text grows");
}
