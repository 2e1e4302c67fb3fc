//! Wrong stores on blocks, each caught by a trial.

use crate::wrong_store::Wrong;
use crate::{cleared, damages, edge_calls, handed_over, runs, some_runs};
use koolvent_model::block::Modelled;
use koolvent_model::store::fault::Fault;

/// What the runs see: answers, outputs and tables.
#[test]
fn runs_catch_wrong_answers_outputs_and_tables() {
    for wrong in [
        Wrong::FreshPastTheEnd,
        Wrong::KeepsTheSetAtAnEnd,
        Wrong::NarrowClients,
        Wrong::NarrowSizes,
        Wrong::TooManyValues,
        Wrong::OneWordShort,
        Wrong::ShowsPastTheFrame,
        Wrong::ShowsWhatFits,
    ] {
        assert!(runs(&wrong).is_err(), "{wrong:?}");
    }
}

/// What damages see besides: every word.
#[test]
fn damages_catch_wrong_words() {
    for wrong in [
        Wrong::MarksARefusal,
        Wrong::FreshLeavesAWord,
        Wrong::FreshPastTheEnd,
        Wrong::MovesFieldsAlone,
        Wrong::JoinsFieldsAlone,
        Wrong::ClearsThePlaceLeft,
        Wrong::ClearsAskedAtAnEnd,
        Wrong::KeepsTheSetAtAnEnd,
        Wrong::LeavesValuesAtAnEnd,
        Wrong::TooManyValues,
        Wrong::ShowsPastTheFrame,
        Wrong::ShowsWhatFits,
    ] {
        assert!(damages(&wrong).is_err(), "{wrong:?}");
    }
}

#[test]
fn edges_catch_narrow_numbers_and_short_blocks() {
    for wrong in [
        Wrong::MarksARefusal,
        Wrong::FreshLeavesAWord,
        Wrong::FreshPastTheEnd,
        Wrong::NarrowClients,
        Wrong::NarrowPlaces,
        Wrong::NarrowSizes,
        Wrong::TooManyValues,
        Wrong::OneWordShort,
        Wrong::ShowsPastTheFrame,
        Wrong::ShowsWhatFits,
    ] {
        assert!(edge_calls(&wrong).is_err(), "{wrong:?}");
    }
}

/// The shortcuts that document 01 forbids, the stores of the buyer's note, and those that number
/// writes otherwise than document 02, P1.
#[test]
fn runs_and_damages_catch_every_wrong_store() {
    for fault in [
        Fault::NewestVersion,
        Fault::ViewAtStart,
        Fault::LateCommit,
        Fault::ClientsBeforeNumbers,
        Fault::InitialReads,
        Fault::NothingAtDelivery,
        Fault::EndAtFirstReply,
        Fault::LengthMadeUp,
        Fault::TurnsAllAway,
        Fault::FullWhileEmpty,
        Fault::CountAlone,
        Fault::WrittenViewAlone,
        Fault::CountByOne,
    ] {
        let wrong = Modelled { fault: Some(fault) };
        assert!(runs(&wrong).is_err(), "{fault:?}");
        assert!(damages(&wrong).is_err(), "{fault:?}");
    }
}

/// Those that offer a got's version to the view otherwise than document 02, P2.
#[test]
fn runs_and_edges_catch_every_other_offer_of_a_version() {
    for fault in [
        Fault::LatestAlone,
        Fault::VersionWithLastGot,
        Fault::VersionToSiblings,
        Fault::GotWithoutSet,
    ] {
        let wrong = Modelled { fault: Some(fault) };
        assert!(runs(&wrong).is_err(), "{fault:?}");
        assert!(edge_calls(&wrong).is_err(), "{fault:?}");
    }
}

/// Those that choose a read's stamps otherwise than document 02, P3. In runs every entry's set has
/// its item; other blocks have entries whose sets lack it.
#[test]
fn runs_damages_and_edges_catch_every_other_choice_of_stamps() {
    let wrong = Modelled { fault: Some(Fault::PassEndsWithTheSet) };
    assert!(runs(&wrong).is_err());
    assert!(damages(&wrong).is_err());
    assert!(edge_calls(&wrong).is_err());
    let wrong = Modelled { fault: Some(Fault::OwnEntryByItsSet) };
    assert!(some_runs(&wrong).is_ok());
    assert!(damages(&wrong).is_err());
    assert!(edge_calls(&wrong).is_err());
}

/// In runs all copies of a stamp's set agree, so that no tie shows; other blocks have ties whose
/// sets differ.
#[test]
fn damages_and_edges_catch_a_tie_that_takes_the_version_s_set() {
    let wrong = Modelled { fault: Some(Fault::TieTakesVersion) };
    assert!(some_runs(&wrong).is_ok());
    assert!(damages(&wrong).is_err());
    assert!(edge_calls(&wrong).is_err());
}

/// Of the widest write: all have writes of more than 12 items, runs and edges of just 12, and edges
/// 13 items at the greatest number; wider sets lie in tables that no calls leave.
#[test]
fn runs_edges_and_damages_catch_wrong_limits_of_a_write() {
    let of = |fault| Modelled { fault: Some(fault) };
    assert!(runs(&of(Fault::AnyWidth)).is_err());
    assert!(damages(&of(Fault::AnyWidth)).is_err());
    assert!(edge_calls(&of(Fault::AnyWidth)).is_err());
    assert!(edge_calls(&of(Fault::WidthAfterSeven)).is_err());
    assert!(runs(&of(Fault::WidestWriteRefused)).is_err());
    assert!(edge_calls(&of(Fault::WidestWriteRefused)).is_err());
    assert!(damages(&of(Fault::WideSetsRefused)).is_err());
    assert!(edge_calls(&of(Fault::WideSetsRefused)).is_err());
}

/// Those that clear otherwise than document 02, P5.
#[test]
fn runs_and_clearings_catch_every_wrong_clearing() {
    for fault in [
        Fault::SparedByItem,
        Fault::SparedByNumber,
        Fault::GetsAloneSpare,
        Fault::GotsLatestForgotten,
        Fault::LastEndedSpares,
        Fault::AskedSpares,
        Fault::LastIntoTheHole,
        Fault::ClearingWaits,
        Fault::AnswersWhatStays,
    ] {
        let wrong = Modelled { fault: Some(fault) };
        assert!(runs(&wrong).is_err(), "{fault:?}");
        assert!(cleared(&wrong).is_err(), "{fault:?}");
    }
}

/// In runs a write under way has a prepare or a prepared reply in flight, which spares its versions
/// too; other blocks have none.
#[test]
fn clearings_catch_a_write_under_way_forgotten_once_its_prepares_are_delivered() {
    let wrong = Modelled { fault: Some(Fault::WriteUnderWayForgotten) };
    assert!(some_runs(&wrong).is_ok());
    assert!(cleared(&wrong).is_err());
}

#[test]
fn clearings_catch_wrong_words() {
    for wrong in [
        Wrong::ClearsFreedPlaces,
        Wrong::AbsentEntriesSpare,
        Wrong::FirstsToComeSpare,
        Wrong::FirstsOfAReadSpare,
        Wrong::FirstsOfAnEndedReadSpare,
        Wrong::MarksARefusal,
    ] {
        assert!(cleared(&wrong).is_err(), "{wrong:?}");
    }
}

/// Those that hand over or compare otherwise than document 02, P6.
#[test]
fn runs_and_hand_overs_catch_every_wrong_hand_over_and_comparison() {
    for fault in [
        Fault::NothingHandedOver,
        Fault::ReceiverReplaced,
        Fault::GiverRaised,
        Fault::HandedStampsAlone,
        Fault::CountHandedOver,
        Fault::IdleBeforeEqual,
        Fault::BusyGiver,
        Fault::BusyReceiver,
        Fault::HandsOverToItself,
        Fault::ComparesIdle,
        Fault::ComparesTwo,
        Fault::AheadIsBehind,
        Fault::NeitherIsBehind,
        Fault::ComparesNumbers,
        Fault::ComparesKnown,
    ] {
        let wrong = Modelled { fault: Some(fault) };
        assert!(runs(&wrong).is_err(), "{fault:?}");
        assert!(handed_over(&wrong).is_err(), "{fault:?}");
    }
}

/// In runs all copies of a stamp's set agree; other blocks have ties whose sets differ.
#[test]
fn hand_overs_and_edges_catch_sets_that_count_at_a_tie() {
    for fault in [Fault::TieTakesGivers, Fault::ComparesSets] {
        let wrong = Modelled { fault: Some(fault) };
        assert!(some_runs(&wrong).is_ok(), "{fault:?}");
        assert!(handed_over(&wrong).is_err(), "{fault:?}");
        assert!(edge_calls(&wrong).is_err(), "{fault:?}");
    }
}

#[test]
fn runs_and_edges_catch_18_tested_before_3() {
    let wrong = Modelled { fault: Some(Fault::EqualBeforeClient) };
    assert!(runs(&wrong).is_err());
    assert!(edge_calls(&wrong).is_err());
}

#[test]
fn hand_overs_catch_wrong_words() {
    for wrong in [Wrong::HandsOverAbsentItems, Wrong::ComparesAbsentItems, Wrong::MarksARefusal] {
        assert!(handed_over(&wrong).is_err(), "{wrong:?}");
    }
}

/// Those that read fast otherwise than document 02, P7.
#[test]
fn runs_and_edges_catch_every_wrong_fast_read() {
    for fault in [
        Fault::FastIsOrdinary,
        Fault::FastReaderStarts,
        Fault::FastReaderReads,
        Fault::NewestFirst,
        Fault::InitialFirst,
        Fault::OlderFirst,
        Fault::FirstFromTheView,
        Fault::FirstRepliesUnseen,
        Fault::OwnLatestAgain,
        Fault::SiblingsOfTheView,
        Fault::SecondStampsOfTheView,
        Fault::EveryItemAgain,
        Fault::EndsWithTheFirstPart,
        Fault::OutsideTheSetAgain,
        Fault::SecondGetsDescending,
        Fault::SecondGetsInTurn,
        Fault::SecondGotsUnseen,
        Fault::SecondGotsKept,
        Fault::LatestFetchedToo,
        Fault::FirstReplyShown,
        Fault::OlderReplyShown,
        Fault::ShownAsOrdinary,
        Fault::FirstReplyByStamp,
    ] {
        let wrong = Modelled { fault: Some(fault) };
        assert!(runs(&wrong).is_err(), "{fault:?}");
        assert!(edge_calls(&wrong).is_err(), "{fault:?}");
    }
}

/// In runs an item that replies last is fetched again, and a greater one with it.
#[test]
fn runs_catch_second_gets_in_the_order_of_replies() {
    assert!(runs(&Modelled { fault: Some(Fault::SecondGetsByReply) }).is_err());
}

/// In runs a first reply brings its item's latest, all copies of a stamp's set agree, every latest
/// is stored, and no reply comes to a client that doesn't await it; not so on other blocks.
#[test]
fn damages_and_edges_catch_replies_that_no_run_has() {
    for fault in [
        Fault::LatestsSetKept,
        Fault::ThirdPart,
        Fault::GotInTheFirstPart,
        Fault::FirstReplyInTheSecondPart,
        Fault::FirstReplyToAnyRead,
        Fault::FirstReplyToAWrite,
        Fault::FirstReplyNotAwaited,
        Fault::UnstoredLatestAnswered,
    ] {
        let wrong = Modelled { fault: Some(fault) };
        assert!(some_runs(&wrong).is_ok(), "{fault:?}");
        assert!(damages(&wrong).is_err(), "{fault:?}");
        assert!(edge_calls(&wrong).is_err(), "{fault:?}");
    }
}

#[test]
fn runs_and_edges_catch_a_load_with_other_first_replies() {
    for fault in [Fault::FirstsInTheSecondLoad, Fault::FirstsOutOfTheLoad] {
        let wrong = Modelled { fault: Some(fault) };
        assert!(runs(&wrong).is_err(), "{fault:?}");
        assert!(edge_calls(&wrong).is_err(), "{fault:?}");
    }
}

/// In runs a first reply's stamp is in its client's view too, unless that has a later one, and
/// hardly ever is it named nowhere else; other blocks have it there alone.
#[test]
fn clearings_catch_first_replies_that_are_not_spared() {
    for fault in [
        Fault::FirstsForgotten,
        Fault::FirstsSparedInTheFirstPart,
        Fault::FirstsSparedIfAwaited,
        Fault::FirstsSparedUnlessAwaited,
    ] {
        let wrong = Modelled { fault: Some(fault) };
        assert!(cleared(&wrong).is_err(), "{fault:?}");
    }
}

#[test]
fn damages_catch_wrong_words_of_fast_reads() {
    for wrong in [
        Wrong::ClearsFirstsAtAStart,
        Wrong::ClearsFirstsAtAnEnd,
        Wrong::AsksAgainAlone,
        Wrong::LastFirstReplyUnkept,
    ] {
        assert!(damages(&wrong).is_err(), "{wrong:?}");
    }
    assert!(runs(&Wrong::AsksAgainAlone).is_err());
}

/// Those that read and write in one transaction otherwise than document 02, P8.
#[test]
fn runs_and_edges_catch_every_wrong_mixed_transaction() {
    for fault in [
        Fault::PreparesBeforeGets,
        Fault::OwnWriteAskedFor,
        Fault::ChosenAtTheEnd,
        Fault::MixedViewAtStart,
        Fault::ViewWithTheLastPrepared,
        Fault::EndsWithTheLastPrepared,
        Fault::EndsWithTheLastGot,
        Fault::CommitsWithTheLastPrepared,
        Fault::GotSendsNoCommits,
        Fault::GotLeavesTheView,
        Fault::GotEndsARead,
        Fault::SharedItemStruckTwice,
        Fault::OwnWriteShown,
        Fault::PartsSwapped,
        Fault::ShownAsAWrite,
        Fault::SharedItemOnce,
        Fault::WrittenItemsAloneInTheLoad,
        Fault::WidthOfBothSets,
        Fault::EmptyReadSet,
    ] {
        let wrong = Modelled { fault: Some(fault) };
        assert!(runs(&wrong).is_err(), "{fault:?}");
        assert!(edge_calls(&wrong).is_err(), "{fault:?}");
    }
}

/// Runs may fill their versions without a mixed start that tells; one of the blocks at the brim has
/// room for just what is written.
#[test]
fn edges_catch_9_of_both_sets() {
    assert!(edge_calls(&Modelled { fault: Some(Fault::NineOfBothSets) }).is_err());
}

#[test]
fn runs_and_edges_catch_a_load_with_other_replies_to_mixed_transactions() {
    for fault in [
        Fault::MixedPreparedOutOfTheLoad,
        Fault::MixedPreparedUntilTheLast,
        Fault::MixedGotsInTheLoad,
    ] {
        let wrong = Modelled { fault: Some(fault) };
        assert!(runs(&wrong).is_err(), "{fault:?}");
        assert!(edge_calls(&wrong).is_err(), "{fault:?}");
    }
}

/// In runs too: where its prepared replies have come and gots are awaited, nothing but the mixed
/// transaction itself names its stamp.
#[test]
fn runs_and_clearings_catch_a_mixed_transaction_forgotten() {
    for fault in [Fault::MixedForgotten, Fault::MixedAskedSpares] {
        let wrong = Modelled { fault: Some(fault) };
        assert!(cleared(&wrong).is_err(), "{fault:?}");
    }
    assert!(runs(&Modelled { fault: Some(Fault::MixedForgotten) }).is_err());
}

/// No run has a first reply to a client that doesn't await it; other blocks do.
#[test]
fn damages_and_edges_catch_a_first_reply_to_a_mixed_transaction() {
    let wrong = Modelled { fault: Some(Fault::FirstReplyToAMixed) };
    assert!(some_runs(&wrong).is_ok());
    assert!(damages(&wrong).is_err());
    assert!(edge_calls(&wrong).is_err());
}

#[test]
fn damages_catch_wrong_words_of_mixed_transactions() {
    for wrong in [
        Wrong::MixesHalvesAlone,
        Wrong::HalvesSwapped,
        Wrong::GotTakesTheWord,
        Wrong::ClearsWriteAtAnEnd,
        Wrong::KeepsShownHalves,
    ] {
        assert!(damages(&wrong).is_err(), "{wrong:?}");
    }
    assert!(runs(&Wrong::HalvesSwapped).is_err());
    assert!(runs(&Wrong::GotTakesTheWord).is_err());
}

/// No run comes near the greatest number; damages and edges have it in views.
#[test]
fn damages_and_edges_catch_7_tested_on_the_count_alone() {
    let wrong = Modelled { fault: Some(Fault::SevenByCount) };
    assert!(damages(&wrong).is_err());
    assert!(edge_calls(&wrong).is_err());
}
