//! 5,030 random runs: answers, outputs and tables are the model's, and condition 3 holds of each.

use koolvent_model::proved::store::Proved;
use koolvent_model::runs::Sort;
use koolvent_model::trials::runs::{random_runs, Runs};

fn runs(sort: Sort, seeds: std::ops::Range<u64>) -> Runs {
    let mut runs = Runs::default();
    let held = random_runs(&Proved, sort, seeds, &mut runs);
    assert_eq!(held, Ok(()));
    runs
}

#[test]
fn small_stores() {
    let runs = runs(Sort::Small, 100_000..104_600);
    assert!(runs.met.rarest_accepted().min(runs.met.checked) >= 3_000, "{runs:?}");
    runs.met.assert_refused(&[1, 2, 3, 4, 5, 6, 10, 13, 14, 18], 500);
    assert!(runs.met.compared.iter().all(|times| *times >= 500), "{runs:?}");
    assert!(runs.taken_over >= 800, "{runs:?}");
    assert!(runs.written_entries_shown >= 40_000, "{runs:?}");
    assert!(runs.corrections >= 1_000, "{runs:?}");
    assert!(runs.shown_again >= 15_000, "{runs:?}");
    assert!(runs.met.gone >= 10_000, "{runs:?}");
    assert!(runs.fast_reads_shown >= 10_000 && runs.fetched_again >= 500, "{runs:?}");
    assert!(runs.own_missed >= 1_000 && runs.fallen >= 200, "{runs:?}");
    assert!(runs.fast_shown_again >= 5_000, "{runs:?}");
    assert!(runs.fast_gots >= 500 && runs.stored_meanwhile >= 100, "{runs:?}");
    assert!(runs.committed_before >= 15_000 && runs.own_committed >= 10_000, "{runs:?}");
    assert!(runs.committed_meanwhile >= 2_000, "{runs:?}");
    assert!(runs.mixed_shown >= 10_000 && runs.ended_by_a_got >= 3_000, "{runs:?}");
    assert!(runs.read_and_written >= 10_000 && runs.mixed_entries_shown >= 5_000, "{runs:?}");
}

#[test]
fn stores_of_any_size() {
    let runs = runs(Sort::AnySize, 110_000..110_400);
    assert!(runs.met.rarest_accepted().min(runs.met.checked) >= 400, "{runs:?}");
    runs.met.assert_refused(&[1, 2, 3, 4, 5, 6, 8, 10, 13, 14, 17, 18], 20);
    assert!(runs.written_entries_shown >= 2_000, "{runs:?}");
    assert!(runs.met.gone >= 100, "{runs:?}");
    assert!(runs.taken_over >= 5, "{runs:?}");
    assert!(runs.fast_reads_shown >= 500 && runs.fetched_again >= 100, "{runs:?}");
    assert!(runs.fast_gots >= 300 && runs.stored_meanwhile >= 60, "{runs:?}");
    assert!(runs.committed_before.min(runs.committed_meanwhile) >= 500, "{runs:?}");
    assert!(runs.mixed_shown >= 500 && runs.ended_by_a_got >= 200, "{runs:?}");
}

#[test]
fn crowded_stores_of_some_thousand_calls() {
    let runs = runs(Sort::Crowded, 120_000..120_030);
    assert!(runs.longest >= 3_000, "{runs:?}");
    assert!(runs.met.rarest_accepted().min(runs.met.checked) >= 30, "{runs:?}");
    runs.met.assert_refused(&[1, 2, 3, 4, 5, 6, 8, 9, 10, 13, 14, 17, 18], 20);
    assert_eq!((runs.greatest_load, runs.most_versions), (128, 512));
    assert!(runs.written_entries_shown >= 2_000, "{runs:?}");
    assert!(runs.corrections >= 30, "{runs:?}");
    assert!(runs.shown_again >= 1_500, "{runs:?}");
    assert!(runs.met.gone >= 1_000 && runs.served >= 100, "{runs:?}");
    assert!(runs.taken_over >= 400, "{runs:?}");
    assert!(runs.fast_reads_shown >= 250 && runs.fetched_again >= 100, "{runs:?}");
    assert!(runs.fast_gots >= 500 && runs.stored_meanwhile >= 100, "{runs:?}");
    assert!(runs.committed_before.min(runs.committed_meanwhile) >= 500, "{runs:?}");
    assert!(runs.mixed_shown >= 200 && runs.ended_by_a_got >= 80, "{runs:?}");
}
