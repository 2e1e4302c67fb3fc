//! Wrong stores. For tests alone: each shows that some test would notice a store that is wrong in
//! this way.

use super::check::Misread;
use super::tables::{
    Client, Tables, FIRST_PART, IDLE, MIXED, MIXING, SECOND_PART, WIDEST_WRITE, WRITE, WRITING,
};
use super::Store;
use crate::set::size;

/// One way in which a store can be wrong.
#[derive(Clone, Copy, Debug, PartialEq, Eq)]
pub enum Fault {
    /// A get is answered with the item's newest stored version.
    NewestVersion,
    /// A write is put in the writer's view at its start.
    ViewAtStart,
    /// A commit replaces the latest even if that is later.
    LateCommit,
    /// Stamps are compared by client before number.
    ClientsBeforeNumbers,
    /// Reads always show initial entries.
    InitialReads,
    /// Messages are sent at the starts, and a delivery takes its message out and does nothing.
    NothingAtDelivery,
    /// A read is reported ended at its first reply.
    EndAtFirstReply,
    /// The message-list length in an answer is made up.
    LengthMadeUp,
    /// Every call but fresh is turned away.
    TurnsAllAway,
    /// Every start that could be accepted is told that the store is full.
    FullWhileEmpty,
    /// A write's number is the one after the count, whatever its client has read.
    CountAlone,
    /// A write's number goes by the view entries of the items written alone.
    WrittenViewAlone,
    /// The count rises by 1, and the stamp alone takes the greater number.
    CountByOne,
    /// 7 is tested on the count alone.
    SevenByCount,
    /// A got offers its latest alone to the view, as in document 01.
    LatestAlone,
    /// The version of a got is offered to the view with the last got alone.
    VersionWithLastGot,
    /// With equal stamps the view entry takes the set of the got's version.
    TieTakesVersion,
    /// The version of a got is offered to the view entries of its siblings too.
    VersionToSiblings,
    /// A got carries no write set.
    GotWithoutSet,
    /// A read asks for an item's own entry only if that entry's set has the item.
    OwnEntryByItsSet,
    /// The pass over the view's entries ends with the last item of the read set.
    PassEndsWithTheSet,
    /// A write may have as many items as a read: there is no 17.
    AnyWidth,
    /// 17 is tested after 7.
    WidthAfterSeven,
    /// 17 is given for as many items as the widest write has.
    WidestWriteRefused,
    /// A block with a wider set than the widest write's is refused by 1.
    WideSetsRefused,
    /// A clearing spares a version by its item and stamp, not by its stamp alone.
    SparedByItem,
    /// A clearing spares by a stamp's number alone.
    SparedByNumber,
    /// A clearing forgets a write under way once all its prepares are delivered.
    WriteUnderWayForgotten,
    /// A clearing looks at no message but gets.
    GetsAloneSpare,
    /// A clearing looks at the version of a got and not at its latest.
    GotsLatestForgotten,
    /// A clearing spares what a client's last ended transaction names.
    LastEndedSpares,
    /// A clearing spares the stamps that a read asked for.
    AskedSpares,
    /// A clearing moves the last version into the place of one that goes.
    LastIntoTheHole,
    /// A clearing is refused by 4 while a client isn't idle.
    ClearingWaits,
    /// A clearing answers how many versions stay.
    AnswersWhatStays,
    /// A hand-over is accepted and does nothing.
    NothingHandedOver,
    /// A hand-over puts the giver's entries in place of the receiver's.
    ReceiverReplaced,
    /// A hand-over raises the giver's entries too.
    GiverRaised,
    /// A hand-over gives the receiver the stamps, and leaves it its sets.
    HandedStampsAlone,
    /// With equal stamps a hand-over gives the receiver the giver's set.
    TieTakesGivers,
    /// A hand-over gives the receiver the giver's count, if that is greater.
    CountHandedOver,
    /// Of a hand-over 4 is tested before 18.
    IdleBeforeEqual,
    /// Of a hand-over 18 is tested before 3.
    EqualBeforeClient,
    /// A busy client hands over.
    BusyGiver,
    /// A busy client takes over.
    BusyReceiver,
    /// A client hands over to itself.
    HandsOverToItself,
    /// A comparison of a busy client is refused by 4.
    ComparesIdle,
    /// A comparison of a client with itself is refused by 18.
    ComparesTwo,
    /// A comparison answers ahead for behind, and behind for ahead.
    AheadIsBehind,
    /// A comparison answers behind where one entry is earlier, whatever the others.
    NeitherIsBehind,
    /// A comparison looks at the numbers of stamps alone.
    ComparesNumbers,
    /// A comparison looks at sets where stamps are equal.
    ComparesSets,
    /// A comparison leaves out what the second client knows no write of.
    ComparesKnown,
    /// A fast read is made as an ordinary one.
    FastIsOrdinary,
    /// A client with a fast read under way isn't refused another by 4.
    FastReaderStarts,
    /// A client with a fast read under way isn't refused an ordinary one by 4.
    FastReaderReads,
    /// A first get is answered with the item's newest stored version.
    NewestFirst,
    /// A first get is answered with the initial version, which is never fractured.
    InitialFirst,
    /// A first get is answered with the newest stored version before the item's latest.
    OlderFirst,
    /// A first get is answered with the version that the client's view would have a read ask for.
    FirstFromTheView,
    /// First replies aren't offered to the view.
    FirstRepliesUnseen,
    /// Of a first reply the set of its latest is kept, not of its version.
    LatestsSetKept,
    /// The second part of a fast read asks for the stamp of the item's own first reply.
    OwnLatestAgain,
    /// The second part of a fast read is chosen from the view, not from the first replies.
    SiblingsOfTheView,
    /// The second part of a fast read fetches the right items, with the stamps that the view chooses.
    SecondStampsOfTheView,
    /// The second part of a fast read fetches every item again.
    EveryItemAgain,
    /// A fast read ends with its last first reply, whatever a sibling shows.
    EndsWithTheFirstPart,
    /// The second part of a fast read fetches siblings outside the read set too.
    OutsideTheSetAgain,
    /// The gets of a second part join in descending order.
    SecondGetsDescending,
    /// Of the gets of a second part that of the item whose first reply came last joins last.
    SecondGetsByReply,
    /// The gets of a second part join one after another, each with the got before it.
    SecondGetsInTurn,
    /// Gots of a second part aren't offered to the view.
    SecondGotsUnseen,
    /// A got of a second part takes the place of the first reply that is kept.
    SecondGotsKept,
    /// A got of a second part whose set shows another item older has that one fetched again.
    ThirdPart,
    /// A got of a second part whose latest is later than its version has the item fetched again.
    LatestFetchedToo,
    /// Of an item fetched again the first reply is shown.
    FirstReplyShown,
    /// Of an item fetched again the first reply is shown where no sibling then shows it older: the
    /// one that it was fetched for has been fetched again itself.
    OlderReplyShown,
    /// A fast read is shown in the frame of an ordinary one.
    ShownAsOrdinary,
    /// The load has the first replies also of a second part.
    FirstsInTheSecondLoad,
    /// The load has no first replies.
    FirstsOutOfTheLoad,
    /// A clearing doesn't spare the first replies that a read keeps.
    FirstsForgotten,
    /// A clearing spares first replies until the first part is over.
    FirstsSparedInTheFirstPart,
    /// A clearing spares of a second part's first replies those of items fetched again alone.
    FirstsSparedIfAwaited,
    /// A clearing doesn't spare a second part's first replies of items fetched again.
    FirstsSparedUnlessAwaited,
    /// A first reply is awaited by its item and the initial stamp.
    FirstReplyByStamp,
    /// A got is awaited in the first part of a fast read, whatever its stamp.
    GotInTheFirstPart,
    /// A first reply is awaited in the second part of a fast read.
    FirstReplyInTheSecondPart,
    /// A first reply is awaited by an ordinary read.
    FirstReplyToAnyRead,
    /// A first reply is awaited by a write.
    FirstReplyToAWrite,
    /// A first reply is taken in the first part of a fast read, whatever its item.
    FirstReplyNotAwaited,
    /// A first get of an item whose latest isn't stored is answered with value 0.
    UnstoredLatestAnswered,
    /// The prepares of a mixed transaction join before its gets.
    PreparesBeforeGets,
    /// A mixed transaction is in its client's view before its reads are chosen.
    OwnWriteAskedFor,
    /// An ordinary read or a mixed transaction shows what its client's view chooses at its end,
    /// before what it wrote enters there.
    ChosenAtTheEnd,
    /// What a mixed transaction writes is put in its client's view at its start.
    MixedViewAtStart,
    /// What a mixed transaction writes enters its client's view with its last prepared reply, gots
    /// awaited or not.
    ViewWithTheLastPrepared,
    /// A mixed transaction ends with its last prepared reply, gots awaited or not.
    EndsWithTheLastPrepared,
    /// A mixed transaction ends with its last got, prepared replies awaited or not.
    EndsWithTheLastGot,
    /// The commits of a mixed transaction join with its last prepared reply.
    CommitsWithTheLastPrepared,
    /// A got that ends a mixed transaction sends no commits.
    GotSendsNoCommits,
    /// A got that ends a mixed transaction leaves what it wrote out of the view.
    GotLeavesTheView,
    /// A got that ends a mixed transaction reports a read ended.
    GotEndsARead,
    /// A reply to a mixed transaction strikes its item from both parts.
    SharedItemStruckTwice,
    /// A mixed transaction shows its own write of items that it reads too.
    OwnWriteShown,
    /// The frame of a mixed transaction has its write part first.
    PartsSwapped,
    /// A mixed transaction is shown in the frame of a write.
    ShownAsAWrite,
    /// 8 counts an item that a mixed start reads and writes once.
    SharedItemOnce,
    /// 8 counts the items that a mixed start writes alone.
    WrittenItemsAloneInTheLoad,
    /// 9 counts the items of both sets of a mixed start.
    NineOfBothSets,
    /// 17 counts the items of both sets of a mixed start.
    WidthOfBothSets,
    /// A mixed start may read no item.
    EmptyReadSet,
    /// The load has no prepared replies of a mixed transaction.
    MixedPreparedOutOfTheLoad,
    /// The load has a mixed transaction's prepared replies until the last of them has come.
    MixedPreparedUntilTheLast,
    /// The load has a mixed transaction's gots too.
    MixedGotsInTheLoad,
    /// A clearing forgets a mixed transaction under way.
    MixedForgotten,
    /// A clearing spares the stamps that a mixed transaction asked for.
    MixedAskedSpares,
    /// A first reply is awaited by a mixed transaction.
    FirstReplyToAMixed,
    /// The test of a block is misread.
    Check(Misread),
}

impl Store {
    /// The load that a start goes by: that of the tables, unless a fault counts other replies.
    pub(super) fn load(&self) -> u64 {
        let come = |mode: u64, come: fn(&Client) -> u64| -> u64 {
            let clients = self.tables.existing_clients().filter(|client| client.mode == mode);
            clients.map(|client| size(come(client))).sum()
        };
        let read = |client: &Client| client.set & !client.awaited;
        let arrived_last = |client: &Client| match client.write.awaited {
            0 => client.arrived(),
            _ => 0,
        };
        let load = self.tables.load();
        match self.fault {
            Some(Fault::FirstsInTheSecondLoad) => load + come(SECOND_PART, read),
            Some(Fault::FirstsOutOfTheLoad) => load - come(FIRST_PART, read),
            Some(Fault::MixedPreparedOutOfTheLoad) => load - come(MIXING, Client::arrived),
            Some(Fault::MixedPreparedUntilTheLast) => load - come(MIXING, arrived_last),
            Some(Fault::MixedGotsInTheLoad) => load + come(MIXING, read),
            _ => load,
        }
    }
}

/// Whether no client has a transaction under way.
pub(super) fn all_idle(tables: &Tables) -> bool {
    tables.existing_clients().all(|client| client.mode == IDLE)
}

/// Whether a set that a write left in the tables has more items than a write may have.
pub(super) fn holds_a_wide_set(tables: &Tables) -> bool {
    let entries = tables.latest.iter().chain(tables.view.iter().flatten());
    let versions = tables.versions.iter().map(|version| version.set);
    let messages = tables.messages.iter().map(|message| message.parts());
    let in_messages = messages.flat_map(|parts| [parts.set, parts.latest.map(|entry| entry.set)]);
    let under_way = tables.clients.iter().filter_map(|client| match client.mode {
        WRITING => Some(client.set),
        MIXING => Some(client.write.set),
        _ => None,
    });
    let ended = tables.clients.iter().filter_map(|client| match client.last.kind {
        WRITE => Some(client.last.set),
        MIXED => Some(client.last.write_set),
        _ => None,
    });
    let firsts = tables.clients.iter().flat_map(Client::first_replies);
    entries
        .copied()
        .chain(firsts)
        .map(|entry| entry.set)
        .chain(versions)
        .chain(in_messages.flatten())
        .chain(under_way)
        .chain(ended)
        .any(|set| size(set) > WIDEST_WRITE)
}
