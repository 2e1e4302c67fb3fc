//! Condition 3's promises over several calls, checked of a list of calls from the calls, answers
//! and outputs alone.
//!
//! The checker runs a list of labels beside the calls, as the steps say which messages join and
//! leave, and never sees the store's tables, but for those that an accepted block held before the
//! first call. By the labels it follows what each client has seen, its view. So it knows each
//! write's stamp from its start on, shown or not, and which write each get asks for: every clause
//! goes by whole stamps. By the commits that were delivered it knows each item's latest write, and
//! so what the replies to a fast read bring. It keeps a capacity for its summary alone, so it
//! doesn't see whether a start has to be refused. Each clause is one function and one `Clause`; the
//! three about ends share theirs. That answers, outputs and tables are those of the steps and the
//! refusal table is for whoever holds the list against the model's store.

mod checker;
mod clauses;
mod held;
mod history;
mod label;
mod showings;
mod summing;
mod transaction;
mod view;

use crate::call::Event;
use crate::store::tables::Tables;
use checker::Checker;

/// A clause of condition 3 that an event of the list breaks.
#[derive(Clone, Copy, Debug, PartialEq, Eq)]
pub enum Clause {
    /// The list starts from tables that an accepted fresh made.
    Fresh,
    /// The number answered is one that such a call can answer.
    Answer,
    /// The output keeps its bytes past an accepted frame, and all of them otherwise.
    Output,
    /// A delivery at any place within the list is accepted.
    DeliveryWithinTheList,
    /// A delivery past the list's end is answered 10.
    DeliveryPastTheEnd,
    /// A delivery answers the kind of the message that lies there.
    Kind,
    /// A start or delivery answers the length of the list after it.
    Length,
    /// A read has exactly one message for each item it awaits.
    OneMessageForEachAwaited { client: u64, item: u64 },
    /// Of an item at most one first reply and one got are delivered to a fast read, ended or not,
    /// and it sends at most one first get and one get, of an item outside its set none.
    Bounded { client: u64, item: u64 },
    /// Until its n-th reply has come a fast read has sent its n first gets alone; from then on, the
    /// second set having joined with that reply, it sends nothing.
    TwoRounds { client: u64 },
    /// A read is reported ended by the delivery of its n-th reply and no other, after n requests
    /// and n replies; a fast one that fetches m items again by that of its (n + m)-th, after n + m
    /// of each.
    ReadEnd,
    /// A write is reported ended by the delivery of its last prepared reply and no other.
    WriteEnd,
    /// A mixed transaction that reads n items is reported ended, as a write is, by the delivery
    /// with which all replies of both kinds are in and no other, after n requests and n replies.
    MixedEnd,
    /// A showing with room enough after an end and before the client's next start is accepted.
    ShowingAfterAnEnd,
    /// The frame shown is one of the transaction that ended last, of a write with its set, number
    /// and values, of a fast read with its kind, of a mixed transaction with both parts.
    Frame,
    /// A shown entry is initial or of an accepted write with that stamp, item and value; in a list
    /// from an accepted block also of a write that it held, whole or under way.
    Unwritten { item: u64 },
    /// Where an entry's write also wrote another shown item, that one isn't shown older.
    Fractured { item: u64, older: u64 },
    /// No entry of a fast read is older than a write of that item whose commit at the item's
    /// partition was delivered before the read's start, the client's own writes included.
    CommittedMissed { item: u64 },
    /// No entry of a fast read is older than what was committed last of that item when the first
    /// get behind its first reply was delivered.
    Stale { item: u64 },
    /// Each entry of a fast read, an initial one too, is what the last of its replies for the item
    /// brought.
    NotBrought { item: u64 },
    /// An entry's write was stored at all its partitions before the get behind the reply that
    /// brought it was delivered.
    AnsweredBeforeStored { item: u64 },
    /// No entry of an ordinary or mixed read is older than a write of that item which the client
    /// had ended before the read's start, or taken over from another that had ended it or taken it
    /// over.
    OwnWriteMissed { item: u64 },
    /// A write is later than every entry that its client was shown before it started.
    OlderThanShown,
    /// No entry of an ordinary or mixed read is older than what a read of the client, of any sort,
    /// that ended before this one's start showed for that item.
    WentBack { item: u64 },
    /// Each entry of an ordinary or mixed read has the stamp chosen at its start: the latest among
    /// the client's view entry for the item and all its view entries whose write set contains it.
    NotChosen { item: u64 },
    /// A clearing is accepted, and no more versions go than are stored.
    Clearing,
    /// A write isn't refused by 9 if it has no more items than are left of the places that a
    /// clearing freed.
    FreedPlaces,
    /// A check is accepted.
    Checking,
}

/// The first event that breaks a clause, counted from 0, and the clause.
#[derive(Clone, Copy, Debug, PartialEq, Eq)]
pub struct Violation {
    pub event: usize,
    pub clause: Clause,
}

/// What a list that keeps condition 3 held.
#[derive(Clone, Debug, Default, PartialEq, Eq)]
pub struct Summary {
    pub reads_ended: usize,
    pub writes_ended: usize,
    pub reads_shown: usize,
    /// Entries shown that were not initial.
    pub written_entries_shown: usize,
    /// Writes shown that had to be later than another client's, which their client was shown.
    pub corrections: usize,
    /// Entries of an ordinary read of items that an earlier read of the client had shown written.
    pub shown_again: usize,
    /// Versions that clearings took away.
    pub gone: u64,
    /// Writes accepted that 9 would have refused if no version had gone.
    pub served: usize,
    /// Entries of an ordinary read of items whose latest write that counts as the client's own it
    /// had taken over.
    pub taken_over: usize,
    pub fast_reads_shown: usize,
    /// Entries that a fast read shows of items that it fetched again.
    pub fetched_again: usize,
    /// Entries that a fast read shows older than an earlier read of the client did.
    pub fallen: usize,
    /// Entries that a fast read shows older than an own write of the client.
    pub own_missed: usize,
    /// Entries of an ordinary read of items that a fast read of the client had shown written.
    pub fast_shown_again: usize,
    /// Gots delivered to fast reads, ended or not.
    pub fast_gots: usize,
    /// Entries that a fast read shows of writes stored at all their partitions only after the
    /// item's first get was delivered.
    pub stored_meanwhile: usize,
    /// Entries that a fast read shows of items with a write committed before its start.
    pub committed_before: usize,
    /// Those of these whose latest such write is the client's own.
    pub own_committed: usize,
    /// Entries that a fast read shows of items whose latest write was committed after its start and
    /// before the item's first get was delivered.
    pub committed_meanwhile: usize,
    pub mixed_shown: usize,
    /// Mixed transactions that a got ended.
    pub ended_by_a_got: usize,
    /// Entries that a mixed transaction shows of items that it also writes.
    pub read_and_written: usize,
    /// Entries shown that a mixed transaction wrote.
    pub mixed_entries_shown: usize,
    pub checks: usize,
    /// Entries shown of writes that an accepted block held.
    pub held_entries_shown: usize,
}

/// Whether the events keep every clause of condition 3. The first is an accepted fresh; another
/// accepted fresh begins a new list.
pub fn check(events: &[Event]) -> Result<Summary, Violation> {
    check_all(Checker::default(), events)
}

/// Whether the events keep every clause of condition 3 that begin with a block which a check has
/// accepted, and which held these tables (document 02, P9): of reads and writes that they begin,
/// and what looks back does so to those. An entry may also be of a write that the block held, whole
/// or under way, and what it held stored counts as delivered.
pub fn check_from(held: &Tables, events: &[Event]) -> Result<Summary, Violation> {
    check_all(Checker::from(held), events)
}

fn check_all(mut checker: Checker, events: &[Event]) -> Result<Summary, Violation> {
    for (place, event) in events.iter().enumerate() {
        checker.check(place, event).map_err(|clause| Violation { event: place, clause })?;
    }
    Ok(checker.summary)
}
