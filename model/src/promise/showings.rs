//! The clauses about what a showing gives after an end and before the client's next start.

use super::history::History;
use super::label::Label;
use super::transaction::{Read, Transaction, Write};
use super::Clause;
use crate::answer::Answer;
use crate::call::{Call, Event};
use crate::frames::log::{Entry, LogFrame, Manner, WritePart};
use crate::set::size;
use crate::stamp::Stamp;

/// Checks a showing, and gives the frame of an accepted one. Of what a block held nothing is
/// promised.
pub(super) fn check(
    history: &History,
    client: u64,
    event: &Event,
    answer: Answer,
) -> Result<Option<LogFrame>, Clause> {
    let Some(last) = history.last_ended(client) else {
        return match answer {
            Answer::Shown { .. } => Err(Clause::Frame),
            _ => Ok(None),
        };
    };
    if last.held {
        return Ok(None);
    }
    accepted_with_room_enough(last, event, answer)?;
    let Answer::Shown { length } = answer else {
        return Ok(None);
    };
    let frame = event.output.get(..length as usize);
    let frame = LogFrame::parse(frame.ok_or(Clause::Frame)?).map_err(|_| Clause::Frame)?;
    frame_has_the_parts(last, &frame)?;
    if let Some(write) = &last.write {
        later_than_all_shown_before(write, &frame)?;
        frame_is_that_of_the_write(write, &frame)?;
    }
    if let Some(read) = &last.read {
        let entries = entries_of_the_read(read, &frame)?;
        let mut writes = Vec::new();
        for entry in &entries {
            writes.push((entry, put_there_by_a_write(history, entry)?));
        }
        for (entry, write) in &writes {
            write.map_or(Ok(()), |write| no_sibling_is_older(write, entry, &entries))?;
        }
        if read.manner == Manner::Fast {
            for entry in &entries {
                no_committed_write_is_missed(history, last, entry)?;
                freshest_when_answered(read, entry)?;
            }
        }
        for (entry, write) in &writes {
            let reply = brought_by_the_last_reply(read, entry)?;
            write.map_or(Ok(()), |write| stored_before_the_answer(write, reply))?;
        }
        if read.manner == Manner::Ordinary {
            no_own_write_is_missed(history, last, &entries)?;
            for entry in &entries {
                never_falls(read, entry)?;
            }
            for entry in &entries {
                chosen_at_the_start(read, entry)?;
            }
        }
    }
    Ok(Some(frame))
}

/// A showing with room enough after an end and before the client's next start is accepted.
fn accepted_with_room_enough(
    last: &Transaction,
    event: &Event,
    answer: Answer,
) -> Result<(), Clause> {
    let Call::Show { output, .. } = &event.call else {
        return Ok(());
    };
    if output.len() >= frame_length(last) && answer.refusal() != 0 {
        return Err(Clause::ShowingAfterAnEnd);
    }
    Ok(())
}

/// A transaction is shown with its client and the parts that it has.
fn frame_has_the_parts(last: &Transaction, frame: &LogFrame) -> Result<(), Clause> {
    let shown = (u64::from(frame.client), frame.read.is_some(), frame.write.is_some());
    if shown == (last.client, last.read.is_some(), last.write.is_some()) && frame.receiver.is_none()
    {
        Ok(())
    } else {
        Err(Clause::Frame)
    }
}

/// A write is shown with its set, number and the values of its start.
fn frame_is_that_of_the_write(write: &Write, frame: &LogFrame) -> Result<(), Clause> {
    let values = write.values.iter().map(|(_, value)| *value).collect();
    let number = write.stamp.number as u32;
    if frame.write == Some(WritePart { set: write.set, number, values }) {
        Ok(())
    } else {
        Err(Clause::Frame)
    }
}

/// A write is shown with a later stamp than every entry that its client was shown before its start.
fn later_than_all_shown_before(write: &Write, frame: &LogFrame) -> Result<(), Clause> {
    if frame.written().iter().all(|entry| entry.stamp > write.after) {
        Ok(())
    } else {
        Err(Clause::OlderThanShown)
    }
}

/// A read is shown with its set, as it was made, and an entry for each item.
fn entries_of_the_read(read: &Read, frame: &LogFrame) -> Result<Vec<Entry>, Clause> {
    let shown = frame.read.as_ref();
    let is_that = shown.is_some_and(|shown| (shown.set, shown.manner) == (read.set, read.manner));
    if is_that {
        Ok(frame.shown())
    } else {
        Err(Clause::Frame)
    }
}

/// An entry is initial, or its write is an accepted write of the list, or one that an accepted
/// block held, with that stamp, item and value.
fn put_there_by_a_write<'a>(
    history: &'a History,
    entry: &Entry,
) -> Result<Option<&'a Write>, Clause> {
    if entry.stamp == Stamp::INITIAL && entry.value == 0 {
        return Ok(None);
    }
    let mut writes = history.writes().map(|(_, write)| write);
    let found = writes
        .find(|write| write.stamp == entry.stamp && write.value(entry.item) == Some(entry.value));
    found.map(Some).ok_or(Clause::Unwritten { item: entry.item })
}

/// Wherever the read shows an entry of a write that also wrote another item it shows, that one
/// isn't older.
fn no_sibling_is_older(write: &Write, entry: &Entry, entries: &[Entry]) -> Result<(), Clause> {
    let older =
        entries.iter().find(|other| write.value(other.item).is_some() && other.stamp < entry.stamp);
    match older {
        Some(older) => Err(Clause::Fractured { item: entry.item, older: older.item }),
        None => Ok(()),
    }
}

/// No entry is older than a write of that item whose commit at the item's partition was delivered
/// before the read's start.
fn no_committed_write_is_missed(
    history: &History,
    read: &Transaction,
    entry: &Entry,
) -> Result<(), Clause> {
    let mut committed = history.committed_before(read.started, entry.item);
    if committed.any(|(_, write)| entry.stamp < write.stamp) {
        Err(Clause::CommittedMissed { item: entry.item })
    } else {
        Ok(())
    }
}

/// No entry is older than the item's latest write when the first get behind its first reply was
/// delivered.
fn freshest_when_answered(read: &Read, entry: &Entry) -> Result<(), Clause> {
    match read.first(entry.item) {
        Some(first) if entry.stamp < first.latest.stamp => Err(Clause::Stale { item: entry.item }),
        _ => Ok(()),
    }
}

/// The last reply for the item, which brought the entry. Of an ordinary read or a mixed transaction
/// it is the only one, and what it brought is for `chosen_at_the_start`.
fn brought_by_the_last_reply<'a>(read: &'a Read, entry: &Entry) -> Result<&'a Label, Clause> {
    let is_brought =
        |reply: &&Label| read.manner == Manner::Ordinary || reply.version.stamp == entry.stamp;
    let brought = read.last_reply(entry.item).filter(is_brought);
    brought.ok_or(Clause::NotBrought { item: entry.item })
}

/// The entry's write was stored at all its partitions before the get behind the reply that brought
/// it was delivered.
fn stored_before_the_answer(write: &Write, reply: &Label) -> Result<(), Clause> {
    if write.stored.is_some_and(|stored| stored < reply.answered) {
        Ok(())
    } else {
        Err(Clause::AnsweredBeforeStored { item: reply.item })
    }
}

/// No entry is older than a write of that item which counts as the client's own at the read's
/// start.
fn no_own_write_is_missed(
    history: &History,
    read: &Transaction,
    entries: &[Entry],
) -> Result<(), Clause> {
    let own: Vec<&Write> = history.own_writes(read).map(|(_, write)| write).collect();
    let missed = entries.iter().find(|entry| {
        let wrote = own.iter().filter(|write| write.value(entry.item).is_some());
        wrote.into_iter().any(|write| entry.stamp < write.stamp)
    });
    match missed {
        Some(entry) => Err(Clause::OwnWriteMissed { item: entry.item }),
        None => Ok(()),
    }
}

/// No entry is older than what a read of the client that ended before this one's start showed.
fn never_falls(read: &Read, entry: &Entry) -> Result<(), Clause> {
    match read.after.get(&entry.item) {
        Some(before) if entry.stamp < *before => Err(Clause::WentBack { item: entry.item }),
        _ => Ok(()),
    }
}

/// Each entry has the stamp that the client's view chose at the start, as the gets asked.
fn chosen_at_the_start(read: &Read, entry: &Entry) -> Result<(), Clause> {
    match read.chosen(entry.item) {
        Some(chosen) if chosen.stamp == entry.stamp => Ok(()),
        _ => Err(Clause::NotChosen { item: entry.item }),
    }
}

/// The length of the log frame of a transaction.
fn frame_length(transaction: &Transaction) -> usize {
    let read = transaction.read.as_ref().map_or(0, |read| 8 + 9 * size(read.set));
    let write = transaction.write.as_ref().map_or(0, |write| 12 + 4 * size(write.set));
    2 + (read + write) as usize
}
