//! Lengths, clients, places, sizes, sets, value bytes and rooms at and past their edges.

use koolvent_model::proved::store::Proved;
use koolvent_model::runs::Sort;
use koolvent_model::store::tables::{Sizes, Tables};
use koolvent_model::trials::edges::{edges, fresh_starts};
use koolvent_model::trials::{brimming, Busy, Met};

fn met(blocks: Vec<Busy>) -> Met {
    let mut met = Met::default();
    let held = blocks.iter().take(4).try_for_each(|busy| fresh_starts(&Proved, busy, &mut met));
    assert_eq!(held, Ok(()));
    for busy in blocks {
        let held = edges(&Proved, &busy, &mut met);
        assert_eq!(held, Ok(()), "{:?}", busy.tables.sizes);
    }
    met
}

#[test]
fn busy_blocks() {
    let small = (0..40).map(|seed| Busy::new(Sort::Small, seed));
    let any_size = (40..80).map(|seed| Busy::new(Sort::AnySize, seed));
    let crowded = (110..130).map(|seed| Busy::new(Sort::Crowded, seed));
    let met = met(small.chain(any_size).chain(crowded).collect());
    assert!(met.rarest_accepted().min(met.checked) >= 10, "{met:?}");
    met.assert_refused(&[1, 2, 3, 4, 5, 6, 8, 9, 10, 13, 14, 17, 18], 10);
}

#[test]
fn blocks_unlike_any_that_calls_leave() {
    let met = met((0..60).map(Busy::unlike_any).collect());
    assert!(met.rarest_accepted() >= 5, "{met:?}");
    met.assert_refused(&[1, 2, 3, 4, 5, 6, 7, 8, 10, 11, 12, 13, 14, 17, 18, 19], 5);
    met.assert_refused_by_kind(50);
}

#[test]
fn fresh_blocks() {
    let sizes = [(1, 1, 1), (8, 8, 64), (8, 1, 63), (1, 8, 2)];
    let fresh = |(clients, partitions, items)| {
        Busy::holding(Tables::fresh(Sizes::new(clients, partitions, items)), items)
    };
    let met = met(sizes.map(fresh).into());
    assert!(met.reads.min(met.fast_reads).min(met.writes).min(met.mixed) >= 50, "{met:?}");
    met.assert_refused(&[1, 2, 3, 5, 6, 10, 13, 17, 18], 10);
}

#[test]
fn blocks_at_the_brim_of_a_capacity() {
    let met = met(brimming());
    assert!(met.reads.min(met.fast_reads).min(met.writes).min(met.mixed) >= 50, "{met:?}");
    met.assert_refused(&[7, 8, 9, 10, 11, 17], 8);
}
