//! Wrong tests of a block. For tests alone: each shows that some trial would notice a test that is
//! wrong in this way.

use super::block::Block;
use super::named::Place;
use super::{broken, broken_rules};
use crate::store::range::is_usable;
use crate::store::tables::{Tables, IDLE};

/// One way in which the test can be misread: a rule left out, weakened, or taken too far.
#[derive(Clone, Copy, Debug, PartialEq, Eq)]
pub enum Misread {
    /// Every block in range is accepted.
    AcceptsAll,
    /// Every block in which something is stored or in flight is refused.
    RefusesAll,
    /// 19 is given for a block that is out of range.
    NineteenBeforeOne,
    /// A block is refused while a client isn't idle.
    WaitsForIdle,
    /// 1: A stamp is whole with one version.
    WholeByOne,
    /// 1: A stamp of which no version is stored is whole where its set is empty.
    WholeOfNone,
    /// 1: The initial stamp isn't accepted.
    InitialRefused,
    /// This rule doesn't look at what stands there; of a commit, get or prepared reply at its stamp.
    Free { rule: u8, place: Place },
    /// 1 to 3 and 6: views are free but the first client's.
    OtherViewsFree,
    /// 1 and 2: the entries that a read ended with aren't free.
    EndedReadsHeld,
    /// 1 and 2: the answers kept from gots aren't free.
    AnswersHeld,
    /// 1 and 2: an idle client's set and its stamps aren't free.
    IdleHeld,
    /// 2: a commit's write has an item of its partition.
    CommitsTouch,
    /// 3 and 9: the set of a prepare is free.
    PreparedSetsFree,
    /// 3: the initial stamp may have a set.
    InitialSetsFree,
    /// 4: two stored versions may be alike.
    TwoAlike,
    /// 4: two versions of one stamp are alike, whatever their items.
    OneOfAStamp,
    /// 5: the value of a got is free.
    GotValuesFree,
    /// 5: the value of a first reply in flight is free.
    FirstValuesFree,
    /// 5: the value of a first reply that is kept is free.
    KeptValuesFree,
    /// 5: it is free in the first part.
    FirstPartFree,
    /// 5: it is free from when its item is awaited again.
    AwaitedAgainFree,
    /// 5: it is free in the second part, unless it is awaited again.
    SecondPartFree,
    /// 5: it is held though a second answer has come in its place.
    SecondAnswerHeld,
    /// 5: the initial version's value is free.
    InitialValuesFree,
    /// 6: a number may be one above its client's count.
    CountedOneMore,
    /// 6: a number has to be below its client's count.
    CountedBelow,
    /// 7: the number of a write under way may be below its client's count.
    BelowItsCount,
    /// 7: its stamp may be another client's, with its own client's count.
    OthersStamp,
    /// 8: an item no longer awaited needn't be stored.
    ArrivedUnstored,
    /// 8: an item with a prepared reply in flight needn't be stored.
    RepliedUnstored,
    /// 8: a write under way may be stored with other values.
    StoredValuesFree,
    /// 9: an item that is read may have no message.
    ReadsLost,
    /// 9: an item that is read may have several messages.
    ReadsTwice,
    /// 9: an item that is written may have no message.
    WritesLost,
    /// 9: an item that is written may have several messages.
    WritesTwice,
    /// 9: there may be gets, gots, first gets and first replies that nobody awaits.
    ReadUnawaited,
    /// 9: there may be prepares and prepared replies that nobody awaits.
    WrittenUnawaited,
    /// 9: a get may have another stamp than the one asked for.
    GetStampsFree,
    /// 9: a got may have another stamp than the one asked for.
    GotStampsFree,
    /// 9: a get may come to a fast read's first part.
    GetInTheFirstPart,
    /// 9: a got may come to a fast read's first part.
    GotInTheFirstPart,
    /// 9: a first get may come to any read.
    FirstGetAnywhere,
    /// 9: a first reply may come to any read.
    FirstReplyAnywhere,
    /// 9: a prepare may have another stamp of its client than the write's.
    PrepareStampsFree,
    /// 9: the value of a prepare is free.
    PreparedValuesFree,
    /// 9: a prepared reply may have another stamp of its client than the write's.
    PreparedStampsFree,
    /// 9: a prepare may be stored already.
    PreparedAgain,
}

/// The refusal of a check that is misread.
pub fn misread(tables: &Tables, misread: Misread) -> Option<u64> {
    if !is_usable(tables) {
        return Some(if misread == Misread::NineteenBeforeOne { 19 } else { 1 });
    }
    let is_broken = match misread {
        Misread::AcceptsAll => false,
        Misread::RefusesAll => !(tables.versions.is_empty() && tables.messages.is_empty()),
        Misread::WaitsForIdle => {
            tables.existing_clients().any(|client| client.mode != IDLE)
                || !broken_rules(tables).is_empty()
        }
        _ => !broken(&Block::new(tables, Some(misread))).is_empty(),
    };
    is_broken.then_some(19)
}
