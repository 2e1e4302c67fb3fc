//! Refusal 1 held against the model's 'in range' of what the words encode: every field with ten
//! numbers each, and words at random, more than 300,000 damages in all.

use koolvent_model::block::Calls;
use koolvent_model::layout::Sort as Field;
use koolvent_model::proved::store::Proved;
use koolvent_model::random::Random;
use koolvent_model::runs::Sort;
use koolvent_model::trials::range::{every_field, lengths, random_words, Judged};
use koolvent_model::trials::{brimming, Busy, Difference, BRIMMING_SORTS};
use std::ops::Range;

/// Whether the block is valid: 1 goes before 3, and no block has a client 0.
fn valid(block: &[u64]) -> bool {
    match Proved.show(block, 0, &mut []) {
        1 => false,
        3 => true,
        other => panic!("{other:#x} is neither 1 nor 3"),
    }
}

type Trial = fn(&Busy, &mut Random, &mut Judged) -> Result<(), Difference>;

const EVERY_FIELD: Trial = |busy, random, judged| every_field(&valid, busy, random, judged);

fn judged(sort: Sort, seeds: Range<u64>, trial: Trial) -> Judged {
    let mut random = Random::new(seeds.start);
    let mut judged = Judged::default();
    for seed in seeds {
        let busy = Busy::new(sort, seed);
        let held = trial(&busy, &mut random, &mut judged);
        assert_eq!(held, Ok(()), "{sort:?} block {seed}");
    }
    judged
}

/// Damages of each sort of field left the block valid, and others didn't.
fn assert_both_met(judged: &Judged, times: usize) {
    let fields = [
        Field::NumberOfClients,
        Field::NumberOfPartitions,
        Field::NumberOfItems,
        Field::NumberOfVersions,
        Field::NumberOfMessages,
        Field::Mode,
        Field::LastKind,
        Field::MessageKind,
        Field::Client,
        Field::Partition,
        Field::Item,
        Field::Count,
        Field::Value,
        Field::Stamp,
        Field::Set,
        Field::FirstStamp,
        Field::FirstSet,
    ];
    for field in fields {
        for met in [&judged.valid, &judged.invalid] {
            let met = met.get(&Some(field)).copied().unwrap_or(0);
            assert!(met >= times, "{field:?} in {judged:?}");
        }
    }
}

#[test]
fn every_field_of_blocks_unlike_any_that_calls_leave() {
    let mut random = Random::new(2);
    let mut judged = Judged::default();
    for seed in 0..30 {
        let held = every_field(&valid, &Busy::unlike_any(seed), &mut random, &mut judged);
        assert_eq!(held, Ok(()), "block {seed}");
    }
    assert!(judged.damages() >= 50_000, "{judged:?}");
    assert_both_met(&judged, 10);
}

#[test]
fn every_field_of_small_blocks() {
    let judged = judged(Sort::Small, 300_000..300_080, EVERY_FIELD);
    assert!(judged.damages() >= 60_000, "{judged:?}");
    assert_both_met(&judged, 20);
}

#[test]
fn every_field_of_blocks_of_any_size() {
    let judged = judged(Sort::AnySize, 310_000..310_015, EVERY_FIELD);
    assert!(judged.damages() >= 60_000, "{judged:?}");
    assert_both_met(&judged, 5);
}

#[test]
fn every_field_of_crowded_blocks() {
    let judged = judged(Sort::Crowded, 320_000..320_003, EVERY_FIELD);
    assert!(judged.damages() >= 90_000, "{judged:?}");
}

#[test]
fn words_at_random() {
    for (sort, seeds, times) in
        [(Sort::Small, 330_000..330_200, 20_000), (Sort::AnySize, 340_000..340_200, 20_000)]
    {
        let judged = judged(sort, seeds, |busy, random, judged| {
            random_words(&valid, busy, 250, random, judged)
        });
        assert_eq!(judged.damages(), 50_000);
        assert!(judged.valid[&None] >= times / 2, "{judged:?}");
        assert!(judged.invalid[&None] >= times, "{judged:?}");
    }
}

#[test]
fn every_length_of_a_block() {
    for seed in 0..4 {
        let busy = Busy::new(Sort::Small, 350_000 + seed);
        assert_eq!(lengths(&valid, &busy), Ok(()));
    }
}

#[test]
fn every_field_of_blocks_at_the_brim_of_a_capacity() {
    let mut random = Random::new(1);
    let mut judged = Judged::default();
    for busy in brimming().iter().take(2 * BRIMMING_SORTS) {
        assert!(valid(&busy.words));
        let held = every_field(&valid, busy, &mut random, &mut judged);
        assert_eq!(held, Ok(()));
        let held = random_words(&valid, busy, 500, &mut random, &mut judged);
        assert_eq!(held, Ok(()));
    }
    assert!(judged.damages() >= 100_000, "{judged:?}");
}
