//! What a random read shows: entries of the log's writes, whole or not.

use crate::frames::log::{LogFrame, Manner, Shown};
use crate::random::Random;
use crate::set::items;
use crate::stamp::Stamp;
use std::collections::BTreeSet;

/// Entries of a set's items for the read at this place.
pub fn random_entries(log: &[LogFrame], place: usize, set: u64, random: &mut Random) -> Vec<Shown> {
    let client = log[place].client;
    let items = items(set);
    let mut entries: Vec<Shown> = if random.once_in(2) {
        items.map(|item| any_entry(log, item, random)).collect()
    } else {
        let mut seen = some_frames(log, random);
        if !random.once_in(3) {
            seen.extend(own_frames(log, place, client));
        }
        items.map(|item| latest_entry(&seen, item)).collect()
    };
    if random.once_in(12) {
        let place = random.place(entries.len());
        entries[place] = altered_entry(entries[place], random);
    }
    entries
}

/// Entries without fault of a set's items for the read at this place. A fast read may miss what
/// counts as the client's own.
pub fn faultless_entries(
    log: &[LogFrame],
    place: usize,
    manner: Manner,
    set: u64,
    random: &mut Random,
) -> Vec<Shown> {
    let mut seen = some_frames(log, random);
    if manner == Manner::Ordinary {
        seen.extend(own_frames(log, place, log[place].client));
    }
    items(set).map(|item| latest_entry(&seen, item)).collect()
}

/// Half of the log's frames. The latest entries of whole writes are never fractured.
fn some_frames<'a>(log: &'a [LogFrame], random: &mut Random) -> Vec<&'a LogFrame> {
    log.iter().filter(|_| random.once_in(2)).collect()
}

/// All that counts as the client's own above this place: what it wrote itself, and what counted as
/// a giver's own when that one handed over to it.
fn own_frames(log: &[LogFrame], place: usize, client: u8) -> impl Iterator<Item = &LogFrame> {
    let mut counted = BTreeSet::from([client]);
    log[..place].iter().rev().filter(move |frame| {
        if frame.receiver.is_some_and(|receiver| counted.contains(&receiver)) {
            counted.insert(frame.client);
        }
        counted.contains(&frame.client)
    })
}

/// The latest of the frames' entries for the item.
fn latest_entry(frames: &[&LogFrame], item: u64) -> Shown {
    frames
        .iter()
        .filter_map(|frame| entry(frame, item))
        .max_by_key(|entry| (entry.number, entry.client))
        .unwrap_or(Shown::INITIAL)
}

/// Any of the log's entries for the item, or the initial one.
fn any_entry(log: &[LogFrame], item: u64, random: &mut Random) -> Shown {
    let mut entries = vec![Shown::INITIAL];
    entries.extend(log.iter().filter_map(|frame| entry(frame, item)));
    random.pick(&entries)
}

/// What a write leaves to be shown of the item.
fn entry(frame: &LogFrame, item: u64) -> Option<Shown> {
    let wrote = frame.written().into_iter().find(|wrote| wrote.item == item)?;
    let Stamp { number, client } = wrote.stamp;
    Some(Shown { number: number as u32, client: client as u8, value: wrote.value })
}

/// The entry with another value, number or client, or initial but for its value.
fn altered_entry(mut entry: Shown, random: &mut Random) -> Shown {
    (entry.number, entry.client) = match random.below(4) {
        0 => (entry.number.saturating_add(1), entry.client.max(1)),
        1 => (entry.number.max(1), 1 + random.below(8) as u8),
        2 => (0, 0),
        _ => {
            entry.value ^= 1;
            (entry.number, entry.client)
        }
    };
    entry
}
