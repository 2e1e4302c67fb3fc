//! The three findings, each by its definition: what of the read at this place of the log is at
//! fault?

use crate::frames::log::{Entry, LogFrame, Manner};
use crate::stamp::Stamp;
use std::collections::BTreeMap;

/// What of the read at this place of the log, counted from 0, has the fault, in words; nothing
/// where none of it has.
pub type Finding = fn(log: &[LogFrame], place: usize) -> Option<String>;

/// The findings with their numbers, in the order in which they go before one another.
pub const FINDINGS: [(u8, Finding); 3] = [(1, unwritten), (2, fractured), (3, own_write_missed)];

/// Finding 1: a stamp that isn't initial, and no write anywhere has that stamp, item and value;
/// or the initial stamp with a value not 0.
pub fn unwritten(log: &[LogFrame], place: usize) -> Option<String> {
    log[place].shown().iter().find_map(|entry| {
        let value = entry.value;
        if entry.stamp == Stamp::INITIAL {
            return (value != 0).then(|| format!("{} with value {value}, not 0", source(entry)));
        }
        if log.iter().any(|write| write.written().contains(entry)) {
            return None;
        }
        let source = source(entry);
        let written = log.iter().flat_map(LogFrame::written);
        let of_stamp: Vec<Entry> = written.filter(|wrote| wrote.stamp == entry.stamp).collect();
        let of_item = of_stamp.iter().find(|wrote| wrote.item == entry.item);
        if of_stamp.is_empty() {
            Some(format!("{source}, a write that the log doesn't have"))
        } else if let Some(wrote) = of_item {
            let other = wrote.value;
            Some(format!("{source} with value {value}, which wrote {other} there"))
        } else {
            Some(format!("{source}, which didn't write that item"))
        }
    })
}

/// Finding 2: the write of a shown stamp also wrote another shown item, shown with an earlier
/// stamp.
pub fn fractured(log: &[LogFrame], place: usize) -> Option<String> {
    let shown = log[place].shown();
    for entry in &shown {
        for sibling in log.iter().flat_map(LogFrame::written) {
            if sibling.stamp != entry.stamp || sibling.item == entry.item {
                continue;
            }
            let is_older = |other: &Entry| other.item == sibling.item && other.stamp < entry.stamp;
            if shown.iter().any(is_older) {
                let (source, item) = (source(entry), sibling.item);
                return Some(format!(
                    "{source}, which also wrote item {item}, and item {item} older"
                ));
            }
        }
    }
    None
}

/// Finding 3: a write above, by the same client or taken over by it, wrote a shown item with a
/// later stamp. A fast read may miss such a write.
pub fn own_write_missed(log: &[LogFrame], place: usize) -> Option<String> {
    let is_fast = log[place].read.as_ref().is_some_and(|read| read.manner == Manner::Fast);
    let own = if is_fast { Vec::new() } else { own_writes(log, place) };
    for entry in log[place].shown() {
        for (line, way) in &own {
            for wrote in log[*line].written() {
                if wrote.item == entry.item && entry.stamp < wrote.stamp {
                    let who = whose(log, place, *line, way);
                    let (source, number, line) = (source(&entry), wrote.stamp.number, line + 1);
                    return Some(format!(
                        "{source}, and {who} wrote it later: write number {number}, log line {line}"
                    ));
                }
            }
        }
    }
    None
}

/// The writes above this place that count as its client's own, by their places, each with the
/// hand-overs that made it so, the uppermost first. Going up, whoever hands over to a client that
/// counts, counts from there on: what it writes below the hand-over doesn't.
fn own_writes(log: &[LogFrame], place: usize) -> Vec<(usize, Vec<usize>)> {
    let mut ways: BTreeMap<u8, Vec<usize>> = BTreeMap::from([(log[place].client, Vec::new())]);
    let mut own = Vec::new();
    for (line, frame) in log[..place].iter().enumerate().rev() {
        let way = ways.get(&frame.client);
        own.extend(way.filter(|_| frame.write.is_some()).map(|way| (line, way.clone())));
        if let Some(way) = frame.receiver.and_then(|receiver| ways.get(&receiver)) {
            let longer = [&[line], &way[..]].concat();
            ways.entry(frame.client).or_insert(longer);
        }
    }
    own.reverse();
    own
}

/// The client of the write at this line, and how the write became the reading client's own.
fn whose(log: &[LogFrame], place: usize, line: usize, way: &[usize]) -> String {
    let (reader, writer) = (log[place].client, log[line].client);
    let lines: Vec<String> = way.iter().map(|line| (line + 1).to_string()).collect();
    let by = match &lines[..] {
        [] => return format!("client {reader} itself"),
        [one] => format!("the hand-over of log line {one}"),
        [most @ .., last] => format!("the hand-overs of log lines {} and {last}", most.join(", ")),
    };
    format!("client {writer}, whose writes came to client {reader} by {by},")
}

/// An item and the write that it is shown from.
pub fn source(entry: &Entry) -> String {
    let Stamp { number, client } = entry.stamp;
    match entry.stamp {
        Stamp::INITIAL => format!("item {} initial", entry.item),
        _ => format!("item {} from write number {number} of client {client}", entry.item),
    }
}
