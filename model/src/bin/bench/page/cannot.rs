//! What the floor leaves, beside SQLite: on a fresh sheet, as it fills, and over a life with
//! clearings.

use super::{time, Measured};
use crate::limits::NOT_SLOWER;
use crate::sheet::{InSqlite, Row, CALLS, SOONER};

const COLUMNS: usize = 100;

/// The page's two paragraphs on it.
pub fn cannot(measured: &Measured) -> String {
    let sheets = &measured.sheets;
    let rows = [&sheets.fresh, &sheets.life, &sheets.cleared, &sheets.cleared_sooner];
    let in_sqlite = rows.map(|row| row.sqlite);
    let [Some(fresh), Some(life), Some(cleared), Some(cleared_sooner)] = in_sqlite else {
        return "SQLite was not installed where this page was made.\n".to_owned();
    };
    let mut without_clearings = vec![on_a_fresh_sheet(&sheets.fresh, fresh)];
    without_clearings.extend(where_passes_are_slower(&measured.sheet));
    without_clearings.push(format!(
        "Over the life of a sheet, from fresh to full, the store is {:.2} times as fast as SQLite.",
        life.as_fast.quickest
    ));
    let with_clearings = [
        over_a_life(&sheets.cleared, cleared),
        format!(
            "With a clearing after every {SOONER} writes the store is {:.2} times as fast.",
            cleared_sooner.as_fast.quickest
        ),
    ];
    in_lines(&without_clearings.join(" ")) + "\n" + &in_lines(&with_clearings.join(" "))
}

fn on_a_fresh_sheet(row: &Row, sqlite: InSqlite) -> String {
    let [floor, in_sqlite] = [row.floor, sqlite.time].map(|figure| figure.quickest);
    format!(
        "A write and a read of the small sheet are {CALLS} calls. On a fresh sheet {CALLS} plain \
         passes over the words in use take {}, {} each, and SQLite takes {} for its two \
         transactions: a store that made these passes and did nothing else would be {:.1} times as \
         fast as SQLite. This one is {:.1} times as fast.",
        time(floor),
        time(floor / CALLS as f64),
        time(in_sqlite),
        in_sqlite / floor,
        sqlite.as_fast.quickest,
    )
}

/// With how many versions the passes alone take longer than SQLite, if they do.
fn where_passes_are_slower(rows: &[Row]) -> Option<String> {
    let are_slower =
        |row: &&Row| row.sqlite.is_some_and(|sqlite| row.floor.quickest > sqlite.time.quickest);
    let versions = rows.iter().find(are_slower)?.versions;
    Some(format!(
        "With {versions} versions stored the {CALLS} passes alone take longer than SQLite, which \
         keeps one version of each item."
    ))
}

/// How many floors a store may take to be as fast as SQLite, and how many this one takes.
fn over_a_life(row: &Row, sqlite: InSqlite) -> String {
    let [floor, in_sqlite] = [row.floor, sqlite.time].map(|figure| figure.quickest);
    let [checks, store] = [row.floors_of_checks, row.floors].map(|figure| figure.quickest);
    let as_fast = sqlite.as_fast.quickest;
    let room = in_sqlite / floor;
    let verdict = if as_fast >= NOT_SLOWER {
        "The limit is met."
    } else if checks > room {
        "The limit is missed, and with each call looking at up to 512 versions it is not within \
         reach of this code, whose checks alone take longer than SQLite."
    } else {
        "The limit is missed, though the checks alone would leave room for it."
    };
    format!(
        "With a clearing whenever 9 refuses a write the sheet is full again before each, and the \
         store is {as_fast:.2} times as fast as SQLite. On the mean over such a life the passes of \
         a write and a read take {}, and SQLite takes {}: a store would have to stay within \
         {room:.2} floors a call to be as fast. In this one the check alone takes {checks:.2} \
         floors, and a call with it {store:.2}. {verdict}",
        time(floor),
        time(in_sqlite),
    )
}

/// The words in lines of the page's width.
pub fn in_lines(paragraph: &str) -> String {
    let mut text = String::new();
    let mut columns = 0;
    for word in paragraph.split(' ') {
        let length = word.chars().count();
        if columns + 1 + length > COLUMNS {
            text.push('\n');
            columns = 0;
        } else if columns > 0 {
            text.push(' ');
            columns += 1;
        }
        text += word;
        columns += length;
    }
    text + "\n"
}
