//! The model on blocks passes the trials, which meet every answer.

use koolvent_model::block::Modelled;
use koolvent_model::layout::is_valid;

#[test]
fn runs_meet_every_call_and_most_refusals() {
    let runs = crate::runs(&Modelled::default()).expect("the model's own answers");
    assert!(runs.met.rarest_accepted().min(runs.met.checked) >= 100, "{runs:?}");
    runs.met.assert_refused(&[1, 2, 3, 4, 5, 6, 8, 9, 10, 13, 14, 17, 18], 1);
    assert!(runs.met.compared.iter().all(|times| *times >= 50), "{runs:?}");
    assert!(runs.taken_over >= 100, "{runs:?}");
    assert!(runs.longest >= 3_000, "{runs:?}");
    assert!(runs.corrections >= 50, "{runs:?}");
    assert!(runs.shown_again >= 200, "{runs:?}");
    assert!(runs.met.gone >= 500 && runs.served >= 20, "{runs:?}");
    assert!(runs.fast_reads_shown >= 400 && runs.fetched_again >= 50, "{runs:?}");
    assert!(runs.own_missed >= 100 && runs.fallen >= 5, "{runs:?}");
    assert!(runs.fast_shown_again >= 200, "{runs:?}");
    assert!(runs.fast_gots >= 50 && runs.stored_meanwhile >= 10, "{runs:?}");
    assert!(runs.committed_before >= 700 && runs.own_committed >= 350, "{runs:?}");
    assert!(runs.committed_meanwhile >= 150, "{runs:?}");
    assert!(runs.mixed_shown >= 200 && runs.ended_by_a_got >= 50, "{runs:?}");
    assert!(runs.read_and_written >= 100 && runs.mixed_entries_shown >= 100, "{runs:?}");
}

#[test]
fn damages_meet_every_call_and_refusal() {
    let damaged = crate::damages(&Modelled::default()).expect("the model's own answers");
    assert!(damaged.met.rarest_accepted() >= 30, "{damaged:?}");
    damaged.met.assert_refused(&[1, 2, 3, 4, 5, 6, 7, 8, 10, 11, 12, 13, 14, 17, 18, 19], 1);
    damaged.met.assert_refused_by_kind(20);
    assert!(damaged.valid >= 1_000, "{damaged:?}");
}

#[test]
fn edges_meet_starts_deliveries_and_their_refusals() {
    let met = crate::edge_calls(&Modelled::default()).expect("the model's own answers");
    let calls = [met.reads, met.fast_reads, met.writes, met.mixed, met.shown, met.cleared];
    assert!(calls.iter().min() >= Some(&10), "{met:?}");
    assert!(met.handed_over.min(met.compared.iter().sum()) >= 10, "{met:?}");
    met.assert_refused(&[1, 2, 3, 4, 5, 6, 7, 8, 9, 10, 13, 14, 17, 18, 19], 1);
    met.assert_refused_by_kind(20);
}

#[test]
fn clearings_meet_versions_that_go_and_that_stay() {
    let met = crate::cleared(&Modelled::default()).expect("the model's own answers");
    assert!(met.cleared >= 700 && met.gone.min(met.stayed) >= 1_500, "{met:?}");
    met.assert_refused(&[1], 50);
}

#[test]
fn hand_overs_meet_views_that_stand_to_each_other_in_every_way() {
    let met = crate::handed_over(&Modelled::default()).expect("the model's own answers");
    assert!(met.handed_over >= 500, "{met:?}");
    assert!(met.compared.iter().all(|times| *times >= 100), "{met:?}");
    met.assert_refused(&[1, 4, 18], 50);
}

#[test]
fn checks_meet_every_rule_broken_alone() {
    let checked = crate::checked(&Modelled::default()).expect("the model's own answers");
    assert!(checked.met.checked >= 2_000, "{checked:?}");
    assert!(checked.broken_alone[1..].iter().all(|times| *times >= 10), "{checked:?}");
    checked.met.assert_refused(&[1, 19], 500);
}

#[test]
fn runs_from_accepted_blocks_show_what_these_held() {
    let runs = crate::runs_from(&Modelled::default()).expect("the model's own answers");
    assert!(runs.runs >= 300 && runs.held_entries_shown >= 1_000, "{runs:?}");
    let starts = [runs.met.reads, runs.met.fast_reads, runs.met.writes, runs.met.mixed];
    assert!(starts.iter().chain(&runs.met.delivered[1..]).min() >= Some(&500), "{runs:?}");
    assert_eq!(runs.met.refused[19] + runs.met.refused[11] + runs.met.refused[12], 0, "{runs:?}");
}

#[test]
fn damages_leave_blocks_valid_and_not() {
    let judged = crate::range(&is_valid).expect("the model's own answers");
    let valid: usize = judged.valid.values().sum();
    let invalid: usize = judged.invalid.values().sum();
    assert!(valid.min(invalid) >= 5_000, "{judged:?}");
}
