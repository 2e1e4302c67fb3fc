//! Checks of 28,000 blocks that calls may not have made, half of them with a word damaged or two,
//! and runs that go on from those accepted of 2,200: answers, outputs and tables are the model's,
//! and condition 3 holds of what each begins.

use koolvent_model::proved::store::Proved;
use koolvent_model::runs::Sort;
use koolvent_model::trials::checks::{checks, runs_from_accepted, Checked};
use koolvent_model::trials::runs::Runs;

fn checked(sort: Sort, seeds: std::ops::Range<u64>) -> Checked {
    let mut checked = Checked::default();
    let held = checks(&Proved, sort, seeds, &mut checked);
    assert_eq!(held, Ok(()));
    checked
}

fn runs(sort: Sort, seeds: std::ops::Range<u64>) -> Runs {
    let mut runs = Runs::default();
    let held = runs_from_accepted(&Proved, sort, seeds, &mut runs);
    assert_eq!(held, Ok(()));
    assert_eq!(runs.met.refused[11] + runs.met.refused[12] + runs.met.refused[19], 0, "{runs:?}");
    runs
}

#[test]
fn small_blocks_that_calls_may_not_have_made() {
    let checked = checked(Sort::Small, 600_000..612_000);
    assert!(checked.met.checked >= 3_000, "{checked:?}");
    assert!(checked.broken_alone[1..].iter().all(|times| *times >= 50), "{checked:?}");
    checked.met.assert_refused(&[1, 19], 3_000);
}

#[test]
fn larger_blocks_that_calls_may_not_have_made() {
    let checked = checked(Sort::AnySize, 620_000..621_940);
    assert!(checked.met.checked >= 500, "{checked:?}");
    checked.met.assert_refused(&[1, 19], 250);
}

#[test]
fn crowded_blocks_that_calls_may_not_have_made() {
    let checked = checked(Sort::Crowded, 624_000..624_060);
    assert!(checked.met.checked >= 15, "{checked:?}");
    checked.met.assert_refused(&[1, 19], 5);
}

#[test]
fn runs_from_small_blocks_that_are_accepted() {
    let runs = runs(Sort::Small, 630_000..632_000);
    assert!(runs.runs >= 800 && runs.held_entries_shown >= 3_000, "{runs:?}");
    runs.met.assert_refused(&[3, 4, 5, 6, 10, 14, 18], 100);
}

#[test]
fn runs_from_larger_blocks_that_are_accepted() {
    let runs = runs(Sort::AnySize, 634_000..634_190);
    assert!(runs.runs >= 75 && runs.held_entries_shown >= 500, "{runs:?}");
}

#[test]
fn runs_from_crowded_blocks_that_are_accepted() {
    let runs = runs(Sort::Crowded, 635_000..635_010);
    assert!(runs.runs >= 3 && runs.held_entries_shown >= 100, "{runs:?}");
}
