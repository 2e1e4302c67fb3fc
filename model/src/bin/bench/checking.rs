//! What a check of a block costs: on a fresh sheet, on the busy block, and on the slowest blocks
//! that are found, of the store's own calls and of any.

mod made;
mod own;
mod walks;

use crate::call::{assert_alike, in_the_model, in_the_store};
use crate::cases::{busy_session, check_block, Case};
use crate::clock::{quickest, Contender, Figure, Rounds};
use crate::floor;
use crate::session::Session;
use koolvent_model::block::Calls;
use koolvent_model::layout::NEEDED;
use koolvent_model::proved::store::Proved;
use std::hint::black_box;

/// How many rounds there are, and fewer where they would take longer than this: a slow check needs
/// no more to be told from others.
const ROUNDS: usize = 101;
const LEAST_ROUNDS: usize = 3;
const LONGEST: f64 = 3e9;

/// So many blocks of a family are timed in rounds: the slowest by a few checks each.
const FINALISTS: usize = 4;

/// A block, and what it is.
pub struct Block {
    pub what: String,
    pub words: Vec<u64>,
}

/// Blocks that are slow for one reason.
pub struct Family {
    pub why: &'static str,
    pub blocks: Vec<Block>,
}

/// Nanoseconds of a check, and the store's time as a multiple of each other's.
pub struct Row {
    pub what: String,
    /// What makes it slow.
    pub why: &'static str,
    pub is_accepted: bool,
    pub store: Figure,
    /// The model on the block.
    pub model: Figure,
    /// One plain pass over all words of the block, in use or not.
    pub floor: Figure,
    pub models: Figure,
    pub floors: Figure,
}

pub struct Checks {
    pub fresh: Row,
    /// Blocks of the store's own calls: the busy block, and the slowest that is found.
    pub own: [Row; 2],
    /// The slowest of each family of blocks that are made by hand.
    pub made: Vec<Row>,
    /// How many blocks of each family were tried, the store's own first.
    pub tried: Vec<usize>,
}

impl Checks {
    pub fn rows(&self) -> impl Iterator<Item = &Row> {
        [&self.fresh].into_iter().chain(&self.own).chain(&self.made)
    }
}

/// A block whose check is timed in rounds.
struct Checked {
    what: String,
    why: &'static str,
    case: Case,
    /// Of a few checks the quickest.
    time: f64,
}

impl Checked {
    fn new(why: &'static str, block: Block) -> Checked {
        let Block { what, words } = block;
        let case = check_block("a check", words);
        Checked { what, why, case, time: f64::MAX }
    }

    /// A few checks more.
    fn try_again(&mut self) {
        let check = || {
            self.check();
        };
        self.time = self.time.min(quickest(2, check));
    }

    fn check(&self) -> u64 {
        black_box(Proved.check(black_box(&self.case.block)))
    }
}

/// All in the same rounds.
pub fn checks() -> Checks {
    let own = Family { why: "all that the calls leave is looked at", blocks: own::blocks() };
    let families: Vec<Family> = [own].into_iter().chain(made::families()).collect();
    let tried = families.iter().map(|family| family.blocks.len()).collect();
    let named = |what: &str, session: Session| {
        let block = Block { what: what.to_owned(), words: session.block() };
        let mut named = Checked::new("", block);
        named.try_again();
        named
    };
    let mut checked = vec![
        named("a fresh small sheet", Session::fresh(2, 2, 4)),
        named("the busy block: 500 versions, 120 messages", busy_session()),
    ];
    checked.extend(slowest(families));
    let mut rows = rows(&checked).into_iter();
    let [fresh, busy, own] = [(); 3].map(|()| rows.next().expect("a row a block"));
    Checks { fresh, own: [busy, own], made: rows.collect(), tried }
}

/// Of each family the slowest block, of those that may be.
fn slowest(families: Vec<Family>) -> Vec<Checked> {
    let mut finalists: Vec<Vec<Checked>> = families.into_iter().map(slow_ones).collect();
    let all: Vec<&Checked> = finalists.iter().flatten().collect();
    let contenders = all.iter().map(|block| in_the_store(&block.case)).collect();
    let rounds = Rounds::run(rounds_of(all), contenders);
    for (place, block) in finalists.iter_mut().flatten().enumerate() {
        block.time = rounds.time(place).quickest;
    }
    let slowest = finalists.into_iter().map(|family| slowest_first(family).remove(0));
    slowest.collect()
}

/// A few checks of each block tell which may be the slowest, in passes over all of them, since a
/// machine that is disturbed is so for a while.
fn slow_ones(family: Family) -> Vec<Checked> {
    let Family { why, blocks } = family;
    let mut blocks: Vec<Checked> =
        blocks.into_iter().map(|block| Checked::new(why, block)).collect();
    for _ in 0..3 {
        blocks.iter_mut().for_each(Checked::try_again);
    }
    let mut slow = slowest_first(blocks);
    slow.truncate(FINALISTS);
    slow
}

fn slowest_first(mut blocks: Vec<Checked>) -> Vec<Checked> {
    blocks.sort_by(|one, other| other.time.total_cmp(&one.time));
    blocks
}

/// A round has some ten checks of each block.
fn rounds_of<'a>(blocks: impl IntoIterator<Item = &'a Checked>) -> usize {
    let round: f64 = blocks.into_iter().map(|block| 10.0 * block.time).sum();
    ((LONGEST / round) as usize).clamp(LEAST_ROUNDS, ROUNDS)
}

/// One plain pass over all words of the block.
fn pass(block: &Checked) -> Contender<'_> {
    floor::passes(&block.case.block, vec![vec![0..NEEDED]])
}

const CONTENDERS: usize = 3;

fn rows(checked: &[Checked]) -> Vec<Row> {
    checked.iter().for_each(|one| assert_alike(&one.case));
    let contenders: Vec<Contender> = checked
        .iter()
        .flat_map(|one| [in_the_store(&one.case), in_the_model(&one.case), pass(one)])
        .collect();
    let rounds = Rounds::run(rounds_of(checked), contenders);
    let row = |(place, one): (usize, &Checked)| {
        let [store, model, floor] = [0, 1, 2].map(|other| CONTENDERS * place + other);
        Row {
            what: one.what.clone(),
            why: one.why,
            is_accepted: one.check() == 0,
            store: rounds.time(store),
            model: rounds.time(model),
            floor: rounds.time(floor),
            models: rounds.ratio(store, model),
            floors: rounds.ratio(store, floor),
        }
    };
    checked.iter().enumerate().map(row).collect()
}
