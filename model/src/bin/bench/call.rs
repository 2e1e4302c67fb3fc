//! One call: the proved store, the model on the same block, the model on tables of its own, and the
//! floor.

use crate::block::Lent;
use crate::cases::Case;
use crate::clock::{quickest_way, steps, steps_prepared, steps_undone, Contender, Figure, Rounds};
use crate::floor;
use koolvent_model::block::{Calls, Modelled};
use koolvent_model::call::Call;
use koolvent_model::frames::log::MOST_BYTES;
use koolvent_model::layout::{decode, NEEDED};
use koolvent_model::proved::store::Proved;
use koolvent_model::store::Store;
use std::hint::black_box;

const ROUNDS: usize = 301;

/// The store and the floor are timed on so many copies of the block, and the quickest counts: now
/// and then the memory that a copy happens to get makes one call or pass slower by some 5 to 20 %
/// in a whole run.
pub const BLOCKS: usize = 4;

/// Nanoseconds of one call, and the store's time as a multiple of each other's.
pub struct Row {
    pub name: &'static str,
    pub store: Figure,
    /// The model on the block: it decodes the words, checks, makes the step, and encodes.
    pub model: Figure,
    /// The model on tables that it has already: it checks and makes the step.
    pub tables: Figure,
    /// One plain pass over the words in use; at a fresh start one plain filling of the needed
    /// words.
    pub floor: Figure,
    pub models: Figure,
    pub models_on_tables: Figure,
    pub floors: Figure,
}

const CONTENDERS: usize = 4;

/// The calls, all in the same rounds.
pub fn rows(cases: &[Case]) -> Vec<Row> {
    cases.iter().for_each(assert_alike);
    let contenders = cases.iter().flat_map(contenders).collect();
    let rounds = Rounds::run(ROUNDS, contenders);
    let row = |(place, case): (usize, &Case)| {
        let [store, model, tables, floor] = [0, 1, 2, 3].map(|other| CONTENDERS * place + other);
        Row {
            name: case.name,
            store: rounds.time(store),
            model: rounds.time(model),
            tables: rounds.time(tables),
            floor: rounds.time(floor),
            models: rounds.ratio(store, model),
            models_on_tables: rounds.ratio(store, tables),
            floors: rounds.ratio(store, floor),
        }
    };
    cases.iter().enumerate().map(row).collect()
}

fn contenders(case: &Case) -> [Contender<'_>; CONTENDERS] {
    [in_the_store(case), in_the_model(case), on_tables(case), floor(case)]
}

pub fn in_the_store(case: &Case) -> Contender<'_> {
    quickest_way((0..BLOCKS).map(|_| on_block(Proved, case)).collect())
}

pub fn in_the_model(case: &Case) -> Contender<'_> {
    on_block(Modelled::default(), case)
}

/// Makes the call on the lent block.
fn make(served: &impl Calls, lent: &mut Lent, call: &Call) -> u64 {
    let block = black_box(&mut lent.block[..]);
    served.call(block, call, black_box(&mut lent.output))
}

/// What is timed isn't refused by 1, and gives the same answer, words and output from both.
pub fn assert_alike(case: &Case) {
    let [mut store, mut model] = [(); 2].map(|()| Lent::new(&case.block, &case.block));
    let answer = make(&Proved, &mut store, &case.call);
    assert!([0, 3, 19].contains(&(answer & 0xff)), "{}", case.name);
    assert_eq!(answer, make(&Modelled::default(), &mut model, &case.call));
    assert_eq!(store.block, model.block, "{}", case.name);
    assert_eq!(store.output, model.output, "{}", case.name);
}

/// The block, ready for the call over and over. What a fresh start costs doesn't depend on what the
/// block held.
fn lent(case: &Case) -> Lent {
    let mut once = Lent::new(&case.block, &case.block);
    if !matches!(case.call, Call::Fresh { .. }) {
        make(&Modelled::default(), &mut once, &case.call);
    }
    Lent::new(&case.block, &once.block)
}

fn on_block<'a>(served: impl Calls + 'a, case: &'a Case) -> Contender<'a> {
    let step = move |lent: &mut Lent| {
        black_box(make(&served, lent, &case.call));
    };
    steps_undone(lent(case), step, Lent::undo)
}

fn on_tables(case: &Case) -> Contender<'_> {
    let tables = decode(&case.block).expect("a block of tables");
    let before = Store::with_tables(tables);
    let prepare = move |store: &mut Store| {
        store.clone_from(&before);
        store.tables.messages.reserve(NEEDED);
        store.tables.versions.reserve(NEEDED);
    };
    let step = |store: &mut Store| {
        black_box(black_box(store).call(&case.call, &mut [0; MOST_BYTES]));
    };
    steps_prepared(Store::new(), prepare, step)
}

fn floor(case: &Case) -> Contender<'_> {
    if matches!(case.call, Call::Fresh { .. }) {
        let mut block = case.block.clone();
        return steps(move || black_box(&mut block).fill(0));
    }
    floor::passes(&case.block, vec![floor::in_use(&case.block)])
}
