//! What the list held, counted, so that no clause passes on nothing.

use super::history::History;
use super::label::{Kind, Label};
use super::transaction::{Read, Transaction, Write};
use super::Summary;
use crate::answer::{READ_ENDED, WRITE_ENDED};
use crate::frames::log::{Entry, LogFrame, Manner};
use crate::set::size;
use crate::stamp::Stamp;

/// Counts a delivered message, which reported this outcome.
pub(super) fn delivery(summary: &mut Summary, history: &History, label: &Label, outcome: u64) {
    let mut reads = history.running(label.client).filter_map(|of| of.read.as_ref());
    let is_fast = reads.any(|read| read.manner == Manner::Fast);
    summary.fast_gots += usize::from(is_fast && label.kind == Kind::Got);
    summary.reads_ended += usize::from(outcome == READ_ENDED);
    summary.writes_ended += usize::from(outcome == WRITE_ENDED);
    summary.ended_by_a_got += usize::from(outcome == WRITE_ENDED && label.kind == Kind::Got);
}

/// Counts what a showing gave of the client's transaction that ended last.
pub(super) fn showing(summary: &mut Summary, history: &History, client: u64, frame: &LogFrame) {
    let shown = frame.shown();
    let written = shown.iter().filter(|entry| entry.stamp != Stamp::INITIAL);
    summary.reads_shown += usize::from(frame.read.is_some());
    summary.written_entries_shown += written.count();
    let is_of = |entry: &Entry, is_one: fn(&Transaction) -> bool| {
        let mut writes = history.writes();
        writes.any(|(of, write)| is_one(of) && write.stamp == entry.stamp)
    };
    let by_mixed = shown.iter().filter(|entry| is_of(entry, |of| of.read.is_some()));
    summary.mixed_entries_shown += by_mixed.count();
    let held = shown.iter().filter(|entry| is_of(entry, |of| of.held));
    summary.held_entries_shown += held.count();
    let Some(last) = history.last_ended(client) else {
        return;
    };
    if let Some(write) = &last.write {
        summary.corrections += usize::from(![0, client].contains(&write.after.client));
    }
    if let (Some(read), Some(write)) = (&last.read, &last.write) {
        summary.mixed_shown += 1;
        summary.read_and_written += size(read.set & write.set) as usize;
    }
    let Some(read) = &last.read else {
        return;
    };
    let count_entry = match read.manner {
        Manner::Ordinary => ordinary_entry,
        Manner::Fast => {
            summary.fast_reads_shown += 1;
            summary.fetched_again += read.fetched_again();
            fast_entry
        }
    };
    for entry in &shown {
        count_entry(summary, history, last, read, entry);
    }
}

/// Counts an entry that a fast read shows.
fn fast_entry(
    summary: &mut Summary,
    history: &History,
    of: &Transaction,
    read: &Read,
    entry: &Entry,
) {
    let item = entry.item;
    let before = read.after.get(&item).copied().unwrap_or_default();
    summary.fallen += usize::from(entry.stamp < before);
    let own = latest_of(history.own_writes(of), item);
    summary.own_missed += usize::from(own.is_some_and(|(_, own)| entry.stamp < own.stamp));
    let committed = latest_of(history.committed_before(of.started, item), item);
    summary.committed_before += usize::from(committed.is_some());
    summary.own_committed += usize::from(committed.is_some_and(|(by, _)| by.client == of.client));
    let Some(first) = read.first(item) else {
        return;
    };
    let at_start = committed.map(|(_, write)| write.stamp).unwrap_or_default();
    summary.committed_meanwhile += usize::from(at_start < first.latest.stamp);
    let shown = history.writes().find(|(_, write)| write.stamp == entry.stamp);
    let stored = shown.and_then(|(_, write)| write.stored);
    summary.stored_meanwhile += usize::from(stored.is_some_and(|stored| first.answered < stored));
}

/// Counts an entry that an ordinary read or a mixed transaction shows.
fn ordinary_entry(
    summary: &mut Summary,
    history: &History,
    of: &Transaction,
    read: &Read,
    entry: &Entry,
) {
    let before = read.after.get(&entry.item).copied().unwrap_or_default();
    summary.shown_again += usize::from(before != Stamp::INITIAL);
    let fast = history.shown_fast(of.client, entry.item);
    summary.fast_shown_again += usize::from(fast != Stamp::INITIAL);
    let own = latest_of(history.own_writes(of), entry.item);
    summary.taken_over += usize::from(own.is_some_and(|(by, _)| by.client != of.client));
}

/// The latest of these writes that wrote the item.
fn latest_of<'a>(
    writes: impl Iterator<Item = (&'a Transaction, &'a Write)>,
    item: u64,
) -> Option<(&'a Transaction, &'a Write)> {
    let wrote = writes.filter(|(_, write)| write.value(item).is_some());
    wrote.max_by_key(|(_, write)| write.stamp)
}
