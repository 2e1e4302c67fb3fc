//! 255,000 damages of one word or two, 205,000 of them of blocks from the middle of runs: each of
//! the calls, a check of every fourth, its answer, its output and every word after it.

use koolvent_model::proved::store::Proved;
use koolvent_model::random::Random;
use koolvent_model::runs::Sort;
use koolvent_model::trials::damage::{damaged_blocks, Damaged};
use koolvent_model::trials::Busy;
use std::ops::Range;

/// So many damages of the block of each seed.
fn damages(block: impl Fn(u64) -> Busy, seeds: Range<u64>, damages: usize) -> Damaged {
    let mut random = Random::new(seeds.start);
    let mut damaged = Damaged::default();
    for seed in seeds {
        let held = damaged_blocks(&Proved, &block(seed), damages, &mut random, &mut damaged);
        assert_eq!(held, Ok(()), "block {seed}");
    }
    damaged
}

#[test]
fn small_blocks() {
    let block = |seed| Busy::new(Sort::Small, seed);
    let damaged = damages(block, 200_000..200_650, 200);
    assert_eq!(damaged.blocks, 130_000);
    assert!(damaged.valid >= 30_000, "{damaged:?}");
    assert!(damaged.met.rarest_accepted().min(damaged.met.checked) >= 500, "{damaged:?}");
    damaged.met.assert_refused(&[1, 2, 3, 4, 5, 6, 7, 10, 11, 12, 13, 14, 18, 19], 20);
    damaged.met.assert_refused_by_kind(10);
}

#[test]
fn blocks_of_any_size() {
    let block = |seed| Busy::new(Sort::AnySize, seed);
    let damaged = damages(block, 210_000..211_000, 50);
    assert_eq!(damaged.blocks, 50_000);
    assert!(damaged.valid >= 15_000, "{damaged:?}");
    assert!(damaged.met.rarest_accepted().min(damaged.met.checked) >= 120, "{damaged:?}");
    damaged.met.assert_refused(&[1, 2, 3, 4, 5, 6, 8, 10, 11, 12, 13, 14, 17, 18, 19], 50);
}

#[test]
fn crowded_blocks() {
    let block = |seed| Busy::new(Sort::Crowded, seed);
    let damaged = damages(block, 220_000..220_100, 250);
    assert_eq!(damaged.blocks, 25_000);
    assert!(damaged.valid >= 5_000, "{damaged:?}");
    assert!(damaged.met.rarest_accepted().min(damaged.met.checked) >= 50, "{damaged:?}");
    damaged.met.assert_refused(&[1, 2, 3, 4, 5, 6, 8, 9, 10, 11, 12, 14, 17, 18, 19], 10);
    // Every client has ended something, so that a damage alone leaves one that has not.
    damaged.met.assert_refused(&[13], 3);
}

#[test]
fn blocks_unlike_any_that_calls_leave() {
    let damaged = damages(Busy::unlike_any, 230_000..230_500, 100);
    assert_eq!(damaged.blocks, 50_000);
    assert!(damaged.valid >= 10_000, "{damaged:?}");
    assert!(damaged.met.rarest_accepted() >= 150, "{damaged:?}");
    damaged.met.assert_refused(&[1, 2, 3, 4, 5, 6, 7, 8, 9, 10, 11, 12, 13, 14, 17, 18, 19], 100);
    damaged.met.assert_refused_by_kind(500);
}
