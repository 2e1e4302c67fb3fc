//! The trials of blocks are tried themselves: the model passes them, and whoever is wrong in one
//! way is caught.

mod model;
mod wrong_calls;
mod wrong_checks;
mod wrong_promises;
mod wrong_range;
mod wrong_store;

use koolvent_model::block::Calls;
use koolvent_model::random::Random;
use koolvent_model::runs::Sort;
use koolvent_model::trials::checks::{checks, runs_from_accepted, Checked};
use koolvent_model::trials::clearings::clearings;
use koolvent_model::trials::damage::{damaged_blocks, Damaged};
use koolvent_model::trials::edges::{edges, fresh_starts};
use koolvent_model::trials::hand_overs::hand_overs;
use koolvent_model::trials::range::{every_field, random_words, Judged, Valid};
use koolvent_model::trials::runs::{random_runs, Runs};
use koolvent_model::trials::{brimming, Busy, Difference, Met, BRIMMING_SORTS};
use std::ops::Range;

/// Runs of every sort.
fn runs(served: &dyn Calls) -> Result<Runs, Difference> {
    let mut runs = Runs::default();
    random_runs(served, Sort::Small, 0..200, &mut runs)?;
    random_runs(served, Sort::AnySize, 0..30, &mut runs)?;
    random_runs(served, Sort::Crowded, 0..6, &mut runs)?;
    Ok(runs)
}

/// Fewer of them, for whoever no run catches.
fn some_runs(served: &dyn Calls) -> Result<Runs, Difference> {
    let mut runs = Runs::default();
    random_runs(served, Sort::Small, 0..50, &mut runs)?;
    random_runs(served, Sort::AnySize, 0..8, &mut runs)?;
    random_runs(served, Sort::Crowded, 0..2, &mut runs)?;
    Ok(runs)
}

/// Damages of blocks of every sort, from runs and unlike any that calls leave.
fn damages(served: &dyn Calls) -> Result<Damaged, Difference> {
    let mut random = Random::new(1);
    let mut damaged = Damaged::default();
    for (sort, seeds) in [(Sort::Small, 0..60), (Sort::AnySize, 60..90), (Sort::Crowded, 90..95)] {
        for seed in seeds {
            let busy = Busy::new(sort, seed);
            damaged_blocks(served, &busy, 60, &mut random, &mut damaged)?;
        }
    }
    for seed in 95..155 {
        damaged_blocks(served, &Busy::unlike_any(seed), 60, &mut random, &mut damaged)?;
    }
    Ok(damaged)
}

/// Small blocks with a mixed transaction that one reply ends: a got, or the last of its prepared
/// replies, with which those that end or commit too early do so.
const MIXED_NEAR_ITS_END: [u64; 3] = [15, 36, 43];

/// A block with a fast read that the last got ends, and whose first reply for some item fetched
/// again no sibling would show to be older.
const AN_OLDER_REPLY_UNFRACTURED: u64 = 169;

/// Edges of small blocks, of some at the brim of a capacity, and of some unlike any that calls
/// leave.
fn edge_calls(served: &dyn Calls) -> Result<Met, Difference> {
    let mut met = Met::default();
    for seed in 0..4 {
        fresh_starts(served, &Busy::new(Sort::Small, seed), &mut met)?;
    }
    for seed in (0..4).chain(MIXED_NEAR_ITS_END) {
        edges(served, &Busy::new(Sort::Small, seed), &mut met)?;
    }
    for busy in brimming().iter().take(BRIMMING_SORTS) {
        edges(served, busy, &mut met)?;
    }
    for seed in (95..165).chain([AN_OLDER_REPLY_UNFRACTURED]) {
        edges(served, &Busy::unlike_any(seed), &mut met)?;
    }
    Ok(met)
}

/// Clearings of blocks whose versions are each named in one place, or in none.
fn cleared(served: &dyn Calls) -> Result<Met, Difference> {
    let mut met = Met::default();
    clearings(served, 0..300, &mut met)?;
    Ok(met)
}

/// Hand-overs and comparisons on blocks whose views stand to each other in every way.
fn handed_over(served: &dyn Calls) -> Result<Met, Difference> {
    let mut met = Met::default();
    hand_overs(served, 0..300, &mut met)?;
    Ok(met)
}

/// Seeds of blocks that calls may not have made, with their sorts.
const CHECKED: [(Sort, Range<u64>); 2] = [(Sort::Small, 0..6_000), (Sort::AnySize, 6_000..6_300)];

/// Checks of these blocks.
fn checked(served: &dyn Calls) -> Result<Checked, Difference> {
    let mut checked = Checked::default();
    for (sort, seeds) in CHECKED {
        checks(served, sort, seeds, &mut checked)?;
    }
    Ok(checked)
}

/// Runs that go on from blocks which are accepted.
fn runs_from(served: &dyn Calls) -> Result<Runs, Difference> {
    let mut runs = Runs::default();
    runs_from_accepted(served, Sort::Small, 0..600, &mut runs)?;
    runs_from_accepted(served, Sort::AnySize, 600..660, &mut runs)?;
    Ok(runs)
}

/// Damaged blocks of every sort, small, unlike any that calls leave or at the brim of a capacity,
/// valid or not.
fn range(valid: &Valid) -> Result<Judged, Difference> {
    let mut random = Random::new(1);
    let mut judged = Judged::default();
    let small = (0..10).map(|seed| Busy::new(Sort::Small, seed));
    for busy in small.chain((16..32).chain([64]).map(Busy::unlike_any)) {
        every_field(valid, &busy, &mut random, &mut judged)?;
    }
    for busy in brimming().iter().take(BRIMMING_SORTS) {
        every_field(valid, busy, &mut random, &mut judged)?;
        random_words(valid, busy, 500, &mut random, &mut judged)?;
    }
    Ok(judged)
}
