//! A transaction each way on the small sheet: client 1 writes its four items, client 2 reads them,
//! all messages are delivered in turn, both are shown. And a correction of the four: client 1 reads
//! and then writes them, in two transactions or in one.

mod calls;

use crate::block::Lent;
use crate::clock::{difference, one_of, steps, steps_undone, Contender, Figure, Rounds};
use crate::floor::{self, Stretches};
use crate::session::Session;
#[cfg(feature = "sqlite")]
use crate::sqlite::Sheet;
pub use calls::CALLS;
use calls::{check_often, Life, Looked, Play, CHECKS, SHEET};
use koolvent_model::block::{Calls, Modelled};
use koolvent_model::proved::store::Proved;
use std::cell::RefCell;

/// So many writes of four items fill the 512 versions of a sheet: without clearings its life ends
/// there.
const WRITES_OF_A_LIFE: usize = 128;
/// A life with clearings has no end, and is timed for so many writes: the sheet fills up four times
/// in them, if it isn't cleared sooner.
const WRITES_OF_A_LONG_LIFE: usize = 4 * WRITES_OF_A_LIFE;
/// So many writes lie between two clearings of a sheet that is cleared sooner.
pub const SOONER: usize = 8;
const ROUNDS: usize = 101;
const ROUNDS_OF_LIVES: usize = 31;

/// Nanoseconds of one write and one read.
pub struct Row {
    pub name: String,
    /// Stored versions before it.
    pub versions: u64,
    pub store: Figure,
    /// Of the store's time, that of its calls' checks.
    pub checks: Figure,
    pub model: Figure,
    /// For each call one plain pass over the words in use before it.
    pub floor: Figure,
    /// The store's time and that of its checks as multiples of the floor.
    pub floors: Figure,
    pub floors_of_checks: Figure,
    pub sqlite: Option<InSqlite>,
}

/// SQLite's time, and how many times as fast as SQLite the store is.
#[derive(Clone, Copy)]
pub struct InSqlite {
    pub time: Figure,
    pub as_fast: Figure,
}

/// On a fresh sheet, with an ordinary and with a fast read, of a correction in two transactions and
/// in one, and the mean over the life of one.
pub struct Rows {
    pub fresh: Row,
    pub fresh_fast: Row,
    pub read_then_write: Row,
    pub mixed: Row,
    /// From a fresh sheet to a full one.
    pub life: Row,
    /// With a clearing whenever 9 refuses a write.
    pub cleared: Row,
    /// With a clearing after every few writes.
    pub cleared_sooner: Row,
}

impl Rows {
    pub fn all(&self) -> [&Row; 7] {
        let fresh = [&self.fresh, &self.fresh_fast, &self.read_then_write, &self.mixed];
        let [one, fast, two, mixed] = fresh;
        [one, fast, two, mixed, &self.life, &self.cleared, &self.cleared_sooner]
    }
}

pub fn rows() -> Rows {
    let long = format!("the mean of {WRITES_OF_A_LONG_LIFE} from a fresh sheet on");
    let plays = [Play::WriteAndRead, Play::WriteAndFastRead, Play::ReadThenWrite, Play::Mixed];
    let fresh = on_sheets(&plays.map(|play| (0, play)));
    let [fresh, fresh_fast, read_then_write, mixed] =
        fresh.try_into().unwrap_or_else(|_| panic!("a row for each play"));
    Rows {
        fresh,
        fresh_fast,
        read_then_write,
        mixed,
        life: mean(
            format!("the mean of {WRITES_OF_A_LIFE}, from a fresh sheet to a full one"),
            Life { writes: WRITES_OF_A_LIFE, cleared_after: None },
        ),
        cleared: mean(
            format!("{long}, with a clearing whenever 9 refuses a write"),
            Life { writes: WRITES_OF_A_LONG_LIFE, cleared_after: None },
        ),
        cleared_sooner: mean(
            format!("{long}, with a clearing after every {SOONER} writes"),
            Life { writes: WRITES_OF_A_LONG_LIFE, cleared_after: Some(SOONER) },
        ),
    }
}

/// The mean of a life's writes and reads.
fn mean(name: String, life: Life) -> Row {
    let contenders = [
        a_life(Proved, life),
        one_of(CHECKS, difference(a_life(Looked(check_often), life), a_life(Proved, life))),
        a_life(Modelled::default(), life),
        passes_of_a_life(life),
    ];
    let rounds = Rounds::run(ROUNDS_OF_LIVES, beside_sqlite(contenders, Play::WriteAndRead));
    row(name, 0, &rounds, 0)
}

/// Against the number of stored versions.
pub fn growth() -> Vec<Row> {
    let versions = [0, 64, 128, 192, 256, 320, 384, 448, 508];
    on_sheets(&versions.map(|versions| (versions, Play::WriteAndRead)))
}

/// On sheets with so many stored versions, each with its play, all in the same rounds.
fn on_sheets(sheets: &[(u64, Play)]) -> Vec<Row> {
    let of_one = |&(versions, play): &(u64, Play)| {
        let block = sheet_with(versions);
        assert_alike(&block, play);
        let [store, again] = [(); 2].map(|()| once(Proved, &block, play));
        let checked = once(Looked(check_often), &block, play);
        let contenders = [
            store,
            one_of(CHECKS, difference(checked, again)),
            once(Modelled::default(), &block, play),
            passes(&block, play),
        ];
        beside_sqlite(contenders, play)
    };
    let of_each: Vec<Vec<Contender>> = sheets.iter().map(of_one).collect();
    let each = of_each.first().map_or(0, Vec::len);
    let rounds = Rounds::run(ROUNDS, of_each.into_iter().flatten().collect());
    let row_of_one = |(place, &(versions, play)): (usize, &(u64, Play))| {
        let name = format!("on a sheet with {versions} stored versions{}", play.how());
        row(name, versions, &rounds, each * place)
    };
    sheets.iter().enumerate().map(row_of_one).collect()
}

fn sheet_with(versions: u64) -> Vec<u64> {
    let mut session = Session::fresh(2, 2, 4);
    for _ in 0..versions / 4 {
        session.write(1, SHEET);
        session.deliver_all();
    }
    session.block()
}

/// The store, its checks, the model, the floor, and SQLite where it is there.
fn beside_sqlite<'a>(contenders: [Contender<'a>; 4], play: Play) -> Vec<Contender<'a>> {
    contenders.into_iter().chain(in_sqlite(play)).collect()
}

/// The row of such contenders, of which the first is at the place.
fn row(name: String, versions: u64, rounds: &Rounds, place: usize) -> Row {
    let [store, checks, model, floor, last] = [0, 1, 2, 3, 4].map(|other| place + other);
    let sqlite = cfg!(feature = "sqlite")
        .then(|| InSqlite { time: rounds.time(last), as_fast: rounds.ratio(last, store) });
    Row {
        name,
        versions,
        store: rounds.time(store),
        checks: rounds.time(checks),
        model: rounds.time(model),
        floor: rounds.time(floor),
        floors: rounds.ratio(store, floor),
        floors_of_checks: rounds.ratio(checks, floor),
        sqlite,
    }
}

/// The store and the model leave the same words and show the same.
fn assert_alike(block: &[u64], play: Play) {
    let [mut store, mut model] = [(); 2].map(|()| Lent::new(block, block));
    play.make(&Proved, &mut store, 1);
    play.make(&Modelled::default(), &mut model, 1);
    assert!(store.block == model.block && store.output == model.output);
}

fn once<'a>(served: impl Calls + 'a, block: &[u64], play: Play) -> Contender<'a> {
    let mut after = Lent::new(block, block);
    play.make(&served, &mut after, 1);
    let lent = Lent::new(block, &after.block);
    let step = move |lent: &mut Lent| play.make(&served, lent, 1);
    steps_undone(lent, step, Lent::undo)
}

fn a_life<'a>(served: impl Calls + 'a, life: Life) -> Contender<'a> {
    let mut lent = fresh_sheet();
    one_of(life.writes, steps(move || life.live(&served, &mut lent)))
}

fn fresh_sheet() -> Lent {
    let block = sheet_with(0);
    Lent::new(&block, &block)
}

/// The floor of what is played.
fn passes<'a>(block: &[u64], play: Play) -> Contender<'a> {
    let mut lent = Lent::new(block, block);
    let before_each = RefCell::new(Vec::new());
    play.make(&watched(&before_each), &mut lent, 1);
    let before_each = before_each.into_inner();
    assert_eq!(before_each.len(), play.calls());
    floor::passes(block, before_each)
}

/// The mean floor of a life's writes and reads, refused ones and clearings counted in. Its passes
/// are all over one block: what the words hold doesn't matter to them.
fn passes_of_a_life<'a>(life: Life) -> Contender<'a> {
    let mut lent = fresh_sheet();
    let before_each = RefCell::new(Vec::new());
    life.live(&watched(&before_each), &mut lent);
    one_of(life.writes, floor::passes(&lent.block, before_each.into_inner()))
}

/// The proved store; the words in use before each call go to the list.
fn watched(before_each: &RefCell<Vec<Stretches>>) -> impl Calls + '_ {
    Looked(|block: &[u64]| before_each.borrow_mut().push(floor::in_use(block)))
}

#[cfg(feature = "sqlite")]
fn in_sqlite<'a>(play: Play) -> Option<Contender<'a>> {
    let mut sheet = Sheet::new();
    let (mut before, mut value) = ([0; 4], 0);
    Some(steps(move || {
        value = (value + 1) % 1_000;
        let values = [0, 1, 2, 3].map(|item| value + item);
        match play {
            Play::WriteAndRead | Play::WriteAndFastRead => {
                sheet.write(1, values);
                assert_eq!(sheet.read(), values);
            }
            Play::ReadThenWrite => {
                assert_eq!(sheet.read(), before);
                sheet.write(1, values);
            }
            Play::Mixed => assert_eq!(sheet.correct(1, values), before),
        }
        before = values;
    }))
}

#[cfg(not(feature = "sqlite"))]
fn in_sqlite<'a>(_: Play) -> Option<Contender<'a>> {
    None
}
