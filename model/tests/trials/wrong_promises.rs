//! Wrong stores caught by condition 3's promises alone: by calls, answers and outputs, without the
//! model's tables beside them.

use koolvent_model::block::Modelled;
use koolvent_model::promise::Clause;
use koolvent_model::runs::Sort;
use koolvent_model::store::fault::Fault;
use koolvent_model::trials::promises::{broken, broken_from_accepted, Checks};
use std::mem::discriminant;
use std::ops::Range;

/// The clauses that runs on the store break, of each run the first.
fn broken_by(store: Modelled, checks: Checks) -> Vec<Clause> {
    let small = broken(&store, Sort::Small, 0..300, checks);
    [small, broken(&store, Sort::AnySize, 0..40, checks)].concat()
}

fn broken_without_checks(fault: Fault) -> Vec<Clause> {
    broken_by(Modelled { fault: Some(fault) }, Checks::LeftOut)
}

/// Runs on the store with the fault break each of these clauses, of whatever item and client.
fn breaks(fault: Fault, clauses: &[Clause]) {
    are_among(&broken_without_checks(fault), fault, clauses);
}

/// So do these runs, where those that all stores have hardly come to it.
fn breaks_in(sort: Sort, seeds: Range<u64>, fault: Fault, clauses: &[Clause]) {
    let found = broken(&Modelled { fault: Some(fault) }, sort, seeds, Checks::LeftOut);
    are_among(&found, fault, clauses);
}

fn are_among(found: &[Clause], fault: Fault, clauses: &[Clause]) {
    for clause in clauses {
        let is_found = found.iter().any(|broken| discriminant(broken) == discriminant(clause));
        assert!(is_found, "{fault:?}: {clause:?} is not among {found:?}");
    }
}

const BOUNDED: Clause = Clause::Bounded { client: 0, item: 0 };
const TWO_ROUNDS: Clause = Clause::TwoRounds { client: 0 };
const COMMITTED_MISSED: Clause = Clause::CommittedMissed { item: 0 };
const STALE: Clause = Clause::Stale { item: 0 };
const NOT_BROUGHT: Clause = Clause::NotBrought { item: 0 };
const FRACTURED: Clause = Clause::Fractured { item: 0, older: 0 };
const ANSWERED_BEFORE_STORED: Clause = Clause::AnsweredBeforeStored { item: 0 };
const OWN_WRITE_MISSED: Clause = Clause::OwnWriteMissed { item: 0 };
const WENT_BACK: Clause = Clause::WentBack { item: 0 };
const NOT_CHOSEN: Clause = Clause::NotChosen { item: 0 };

#[test]
fn the_model_breaks_no_clause() {
    assert_eq!(broken_by(Modelled::default(), Checks::Made), []);
}

#[test]
fn first_gets_answered_with_another_version_than_the_latest_are_found() {
    breaks(Fault::InitialFirst, &[COMMITTED_MISSED, STALE]);
    breaks(Fault::OlderFirst, &[COMMITTED_MISSED, STALE]);
    breaks(Fault::FirstFromTheView, &[COMMITTED_MISSED, STALE, NOT_BROUGHT]);
    breaks(Fault::NewestFirst, &[NOT_BROUGHT]);
    breaks(Fault::LateCommit, &[COMMITTED_MISSED, STALE]);
}

#[test]
fn items_fetched_too_often_are_found() {
    breaks(Fault::LatestFetchedToo, &[Clause::Length, Clause::ReadEnd]);
    breaks(Fault::EveryItemAgain, &[Clause::Length, Clause::ReadEnd]);
    breaks(Fault::OutsideTheSetAgain, &[Clause::Length, Clause::ReadEnd]);
    breaks(Fault::FastReaderStarts, &[BOUNDED]);
    breaks_in(Sort::Small, 0..1000, Fault::FastReaderReads, &[BOUNDED, TWO_ROUNDS]);
}

/// With the last first reply fewer messages lie there than the items fetched again ask for.
#[test]
fn second_gets_sent_one_after_another_are_found() {
    breaks(Fault::SecondGetsInTurn, &[Clause::Length]);
}

#[test]
fn second_parts_with_other_items_or_stamps_are_found() {
    breaks(Fault::SiblingsOfTheView, &[Clause::ReadEnd]);
    breaks(Fault::SecondStampsOfTheView, &[FRACTURED, NOT_BROUGHT]);
    breaks(Fault::OwnLatestAgain, &[FRACTURED]);
    breaks(Fault::EndsWithTheFirstPart, &[Clause::ReadEnd]);
}

#[test]
fn fast_reads_shown_or_remembered_wrongly_are_found() {
    breaks(Fault::FastIsOrdinary, &[Clause::Kind]);
    breaks(Fault::FirstReplyByStamp, &[Clause::DeliveryWithinTheList]);
    breaks(Fault::FirstReplyShown, &[FRACTURED]);
    breaks_in(Sort::Crowded, 0..6, Fault::OlderReplyShown, &[NOT_BROUGHT]);
    breaks(Fault::ShownAsOrdinary, &[Clause::Frame]);
    breaks(Fault::FirstRepliesUnseen, &[WENT_BACK, Clause::OlderThanShown]);
}

/// What a read shows then is unfractured, no own write is missed, and nothing goes back: no other
/// clause is broken.
#[test]
fn choices_from_another_part_of_the_view_or_from_more_are_found() {
    for fault in [Fault::PassEndsWithTheSet, Fault::VersionToSiblings] {
        let broken = broken_without_checks(fault);
        are_among(&broken, fault, &[NOT_CHOSEN]);
        assert!(
            broken.iter().all(|clause| matches!(clause, Clause::NotChosen { .. })),
            "{fault:?}"
        );
    }
}

#[test]
fn entries_that_were_not_chosen_at_the_start_are_found() {
    breaks(Fault::ChosenAtTheEnd, &[ANSWERED_BEFORE_STORED, NOT_CHOSEN]);
    breaks(Fault::OwnWriteShown, &[ANSWERED_BEFORE_STORED, NOT_CHOSEN]);
    breaks(Fault::OwnWriteAskedFor, &[Clause::DeliveryWithinTheList, NOT_CHOSEN]);
}

#[test]
fn mixed_transactions_that_send_or_end_otherwise_are_found() {
    breaks(Fault::PreparesBeforeGets, &[Clause::Kind]);
    breaks(Fault::EndsWithTheLastPrepared, &[Clause::MixedEnd]);
    breaks(Fault::EndsWithTheLastGot, &[Clause::MixedEnd]);
    breaks(Fault::GotEndsARead, &[Clause::MixedEnd]);
    breaks(Fault::SharedItemStruckTwice, &[Clause::MixedEnd, Clause::DeliveryWithinTheList]);
    breaks(Fault::CommitsWithTheLastPrepared, &[Clause::Length]);
    breaks(Fault::GotSendsNoCommits, &[Clause::Length]);
    breaks(Fault::GotLeavesTheView, &[OWN_WRITE_MISSED]);
}

#[test]
fn mixed_transactions_shown_otherwise_are_found() {
    breaks(Fault::PartsSwapped, &[Clause::Frame]);
    breaks(Fault::ShownAsAWrite, &[Clause::Frame]);
}

/// A mixed start that there is no room for leaves a load that every later call refuses. A clearing
/// that forgets a mixed transaction takes versions that are asked for later.
#[test]
fn mixed_transactions_without_room_or_forgotten_are_found() {
    let refused = Clause::DeliveryWithinTheList;
    for fault in [
        Fault::SharedItemOnce,
        Fault::WrittenItemsAloneInTheLoad,
        Fault::MixedPreparedOutOfTheLoad,
        Fault::MixedPreparedUntilTheLast,
    ] {
        breaks_in(Sort::Crowded, 0..6, fault, &[refused]);
    }
    breaks_in(Sort::Crowded, 0..6, Fault::NineOfBothSets, &[Clause::FreedPlaces]);
    breaks(Fault::MixedForgotten, &[refused]);
}

/// Which message of a client lies where, what is spared, what a busy client has in its view, and
/// what only damaged blocks hold shows in tables alone; so does a start that is refused for want of
/// room.
#[test]
fn what_shows_in_tables_or_refusals_alone_breaks_no_clause() {
    for fault in [
        Fault::SecondGetsDescending,
        Fault::SecondGetsByReply,
        Fault::SecondGotsKept,
        Fault::LatestsSetKept,
        Fault::ThirdPart,
        Fault::FirstsInTheSecondLoad,
        Fault::FirstsSparedUnlessAwaited,
        Fault::MixedViewAtStart,
        Fault::ViewWithTheLastPrepared,
        Fault::WidthOfBothSets,
        Fault::MixedGotsInTheLoad,
        Fault::MixedAskedSpares,
        Fault::FirstReplyToAMixed,
    ] {
        assert_eq!(broken_without_checks(fault), [], "{fault:?}");
    }
}

/// A check finds tables that no other clause goes by.
#[test]
fn a_check_that_refuses_what_the_store_has_made_is_found() {
    let found = broken_by(Modelled { fault: Some(Fault::MixedViewAtStart) }, Checks::Made);
    assert!(!found.is_empty() && found.iter().all(|clause| *clause == Clause::Checking));
}

#[test]
fn from_an_accepted_block_the_model_breaks_no_clause() {
    let model = Modelled::default();
    assert_eq!(broken_from_accepted(&model, Sort::Small, 0..400), []);
    assert_eq!(broken_from_accepted(&model, Sort::AnySize, 400..440), []);
}

/// Of what a list begins from an accepted block, with the views and latest that the block held.
#[test]
fn from_accepted_blocks_wrong_stores_break_the_same_clauses() {
    for (fault, clauses) in [
        (Fault::PassEndsWithTheSet, &[NOT_CHOSEN][..]),
        (Fault::VersionToSiblings, &[NOT_CHOSEN]),
        (Fault::ChosenAtTheEnd, &[NOT_CHOSEN]),
        (Fault::OwnWriteShown, &[NOT_CHOSEN]),
        (Fault::GotLeavesTheView, &[OWN_WRITE_MISSED, NOT_CHOSEN]),
        (Fault::FirstRepliesUnseen, &[WENT_BACK, Clause::OlderThanShown, NOT_CHOSEN]),
        (Fault::InitialFirst, &[COMMITTED_MISSED, STALE]),
        (Fault::LateCommit, &[COMMITTED_MISSED, STALE]),
        (Fault::NewestFirst, &[NOT_BROUGHT]),
        (Fault::OwnLatestAgain, &[FRACTURED]),
        (Fault::EndsWithTheFirstPart, &[Clause::ReadEnd]),
        (Fault::EndsWithTheLastGot, &[Clause::MixedEnd]),
        (Fault::FastReaderStarts, &[BOUNDED]),
        (Fault::NothingHandedOver, &[OWN_WRITE_MISSED, NOT_CHOSEN]),
    ] {
        let store = Modelled { fault: Some(fault) };
        are_among(&broken_from_accepted(&store, Sort::Small, 0..150), fault, clauses);
    }
}
