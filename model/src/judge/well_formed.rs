//! Refusal 15: which lines of a log the judge takes.

use crate::frames::hex::from_line;
use crate::frames::log::LogFrame;
use crate::stamp::Stamp;

/// The frame of each line, or what is wrong with the line.
pub fn lines(log: &[u8]) -> Vec<Result<LogFrame, String>> {
    let mut lines = Vec::new();
    for line in log.split_inclusive(|byte| *byte == b'\n') {
        lines.push(frame(line, &lines));
    }
    lines
}

/// The frame of a line with its line end, if the line is well formed below those above it.
fn frame(line: &[u8], above: &[Result<LogFrame, String>]) -> Result<LogFrame, String> {
    let frame = LogFrame::parse(&from_line(line)?)?;
    match wrong_field(&frame, above) {
        Some(wrong) => Err(wrong),
        None => Ok(frame),
    }
}

fn wrong_field(frame: &LogFrame, above: &[Result<LogFrame, String>]) -> Option<String> {
    let client = frame.client;
    if !is_client(client.into()) {
        return Some(format!("client {client}, and clients are 1 to 8"));
    }
    match frame.receiver {
        Some(receiver) if !is_client(receiver.into()) => {
            return Some(format!("receiver {receiver}, and clients are 1 to 8"));
        }
        Some(receiver) if receiver == client => {
            return Some(format!("client {client} hands over to itself"));
        }
        _ => (),
    }
    let read_set = frame.read.as_ref().map(|read| read.set);
    let write_set = frame.write.as_ref().map(|write| write.set);
    if [read_set, write_set].contains(&Some(0)) {
        return Some("its set is empty".to_owned());
    }
    let number = frame.write.as_ref().map(|write| write.number);
    if number == Some(0) {
        return Some("write number 0, and numbers begin with 1".to_owned());
    }
    number.and_then(|number| not_risen(client, number, above)).or_else(|| {
        let shown = frame.shown();
        let wrong = shown.iter().find(|entry| !is_stamp(entry.stamp))?;
        let (item, Stamp { number, client }) = (wrong.item, wrong.stamp);
        Some(format!("item {item} from write number {number} of client {client}"))
    })
}

/// Desks are 1..8.
fn is_client(client: u64) -> bool {
    (1..=8).contains(&client)
}

/// Number and writing desk are both 0, or at least 1 and 1..8.
fn is_stamp(stamp: Stamp) -> bool {
    stamp == Stamp::INITIAL || stamp.number >= 1 && is_client(stamp.client)
}

/// The first write above by the same client with a number that isn't lower.
fn not_risen(client: u8, number: u32, above: &[Result<LogFrame, String>]) -> Option<String> {
    (1..).zip(above).find_map(|(line, frame)| {
        let frame = frame.as_ref().ok().filter(|frame| frame.client == client)?;
        let earlier = frame.write.as_ref()?.number;
        (earlier >= number).then(|| {
            format!(
                "write number {number} of client {client} below its number {earlier}, \
                 log line {line}"
            )
        })
    })
}
