//! Wrong tests of a block, each caught by a trial.

use crate::wrong_store::Wrong;
use crate::{checked, damages, edge_calls, runs, runs_from, some_runs, CHECKED};
use koolvent_model::block::Modelled;
use koolvent_model::layout::decode;
use koolvent_model::store::check::{broken_rules, misread as misread_as, Misread, Place};
use koolvent_model::store::fault::Fault;
use koolvent_model::store::range::is_usable;
use koolvent_model::trials::checks::blocks;

fn of(misread: Misread) -> Modelled {
    Modelled { fault: Some(Fault::Check(misread)) }
}

/// Rules that are taken too far: blocks that calls have made are refused.
#[test]
fn runs_catch_every_test_that_refuses_what_calls_make() {
    for misread in [
        Misread::RefusesAll,
        Misread::WaitsForIdle,
        Misread::InitialRefused,
        Misread::EndedReadsHeld,
        Misread::AnswersHeld,
        Misread::OneOfAStamp,
        Misread::SecondAnswerHeld,
        Misread::CountedBelow,
    ] {
        assert!(runs(&of(misread)).is_err(), "{misread:?}");
        assert!(checked(&of(misread)).is_err(), "{misread:?}");
    }
}

/// The places that hold an entry: rules 1, 2 and 3 look at each.
const ENTRIES: [Place; 8] = [
    Place::View,
    Place::Latest,
    Place::Got,
    Place::LatestOfGot,
    Place::FirstReply,
    Place::LatestOfFirstReply,
    Place::KeptInTheFirstPart,
    Place::KeptInTheSecondPart,
];

/// Rules that don't look at some place.
fn left_out() -> Vec<Misread> {
    let free = |rule, place| Misread::Free { rule, place };
    let entries = ENTRIES.map(|place| [1, 2, 3].map(|rule| free(rule, place)));
    let messages = [free(1, Place::Commit), free(1, Place::Get), free(2, Place::Get)];
    let sets = [Place::Stored, Place::UnderWay, Place::LastWrite, Place::LastMixed];
    let counted = [Place::Stored, Place::LastWrite, Place::LastMixed];
    let held = sets.map(|place| free(3, place)).into_iter();
    let held = held.chain(counted.map(|place| free(6, place)));
    entries.into_iter().flatten().chain(messages).chain(held).collect()
}

/// Rule 6 needn't look at what the others hold to a stamp that it does look at: what is named is
/// stored (1), a write under way has its client's count (7), and its messages have its stamp (9).
fn held_by_other_rules() -> Vec<Misread> {
    let others = [Place::Commit, Place::Get, Place::UnderWay, Place::Prepare, Place::Prepared];
    let places = ENTRIES.into_iter().chain(others);
    places.map(|place| Misread::Free { rule: 6, place }).collect()
}

/// Rules that are otherwise weakened.
const WEAKENED: [Misread; 36] = [
    Misread::AcceptsAll,
    Misread::WholeByOne,
    Misread::WholeOfNone,
    Misread::OtherViewsFree,
    Misread::PreparedSetsFree,
    Misread::InitialSetsFree,
    Misread::TwoAlike,
    Misread::GotValuesFree,
    Misread::FirstValuesFree,
    Misread::KeptValuesFree,
    Misread::FirstPartFree,
    Misread::AwaitedAgainFree,
    Misread::SecondPartFree,
    Misread::InitialValuesFree,
    Misread::CountedOneMore,
    Misread::BelowItsCount,
    Misread::OthersStamp,
    Misread::ArrivedUnstored,
    Misread::RepliedUnstored,
    Misread::StoredValuesFree,
    Misread::ReadsLost,
    Misread::ReadsTwice,
    Misread::WritesLost,
    Misread::WritesTwice,
    Misread::ReadUnawaited,
    Misread::WrittenUnawaited,
    Misread::GetStampsFree,
    Misread::GotStampsFree,
    Misread::GetInTheFirstPart,
    Misread::GotInTheFirstPart,
    Misread::FirstGetAnywhere,
    Misread::FirstReplyAnywhere,
    Misread::PrepareStampsFree,
    Misread::PreparedValuesFree,
    Misread::PreparedStampsFree,
    Misread::PreparedAgain,
];

/// Those of the misreadings that no block tells from the rules, of those that calls may not have
/// made.
fn untold(mut misreads: Vec<Misread>) -> Vec<Misread> {
    for (sort, seeds) in CHECKED {
        for block in seeds.flat_map(|seed| blocks(sort, seed)) {
            let Some(tables) = decode(&block).filter(is_usable) else {
                continue;
            };
            let is_refused = !broken_rules(&tables).is_empty();
            misreads.retain(|misread| misread_as(&tables, *misread).is_some() == is_refused);
        }
    }
    misreads
}

/// Rules that are left out or weakened: no run has a block that they let pass, since the calls make
/// none.
#[test]
fn checks_catch_every_rule_left_out_or_weakened() {
    let misreads = [left_out(), WEAKENED.to_vec(), held_by_other_rules()].concat();
    assert_eq!(untold(misreads), held_by_other_rules());
    assert!(some_runs(&of(Misread::AcceptsAll)).is_ok());
}

/// What the ticket leaves free on blocks that no calls make: a commit to a partition that its write
/// doesn't touch, and an idle client's set.
#[test]
fn checks_catch_every_test_that_refuses_what_is_free() {
    for misread in [Misread::CommitsTouch, Misread::IdleHeld] {
        assert!(some_runs(&of(misread)).is_ok(), "{misread:?}");
        assert!(checked(&of(misread)).is_err(), "{misread:?}");
    }
}

#[test]
fn checks_damages_and_edges_catch_19_tested_before_1() {
    let wrong = of(Misread::NineteenBeforeOne);
    assert!(checked(&wrong).is_err());
    assert!(damages(&wrong).is_err());
    assert!(edge_calls(&wrong).is_err());
}

/// Words that are no field: of clients, items, messages and versions that don't exist, and of reads
/// that aren't under way.
#[test]
fn checks_catch_words_looked_at_that_are_no_field() {
    for wrong in [
        Wrong::ChecksAbsentEntries,
        Wrong::ChecksOldFirstReplies,
        Wrong::ChecksOneMessageMore,
        Wrong::ChecksOneVersionMore,
    ] {
        assert!(checked(&wrong).is_err(), "{wrong:?}");
    }
    assert!(edge_calls(&Wrong::OneWordShort).is_err());
}

/// From accepted blocks runs go wrong as from a fresh start.
#[test]
fn runs_from_accepted_blocks_catch_wrong_stores() {
    for fault in [
        Fault::NewestVersion,
        Fault::ViewAtStart,
        Fault::LateCommit,
        Fault::CountAlone,
        Fault::LatestAlone,
        Fault::SparedByItem,
        Fault::NothingHandedOver,
        Fault::EndsWithTheFirstPart,
        Fault::EndsWithTheLastGot,
        Fault::Check(Misread::RefusesAll),
    ] {
        assert!(runs_from(&Modelled { fault: Some(fault) }).is_err(), "{fault:?}");
    }
}
