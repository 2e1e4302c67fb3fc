//! Answers to store frames.

use super::log;
use super::refusals::refused;
use super::words::count;
use crate::answer::{AHEAD, BEHIND, NEITHER, SAME};
use crate::call::Call;
use crate::frames::hex::from_line;
use crate::frames::log::LogFrame;

/// What a line says that answers this frame, or a malformed one where there is none.
pub fn sentence(frame: Option<&Call>, line: &[u8]) -> String {
    let bytes = match from_line(line) {
        Ok(bytes) => bytes,
        Err(wrong) => return format!("malformed answer: {wrong}"),
    };
    let said = match bytes[..] {
        [refusal] if refusal != 0 => refused(refusal),
        _ => frame.and_then(|frame| accepted(frame, &bytes)),
    };
    said.unwrap_or_else(|| "this is no answer to such a frame".to_owned())
}

/// An accepted call's answer, if the bytes are one of this frame.
fn accepted(frame: &Call, bytes: &[u8]) -> Option<String> {
    match (frame, bytes) {
        (Call::Fresh { .. } | Call::Check, [0]) => Some("accepted".to_owned()),
        (
            Call::Read { .. } | Call::FastRead { .. } | Call::Write { .. } | Call::Mixed { .. },
            [0, high, low],
        ) => Some(format!("accepted, {}", in_flight(*high, *low))),
        (Call::Deliver { .. }, [0, kind, high, low, outcome]) => {
            let (name, ended) = (kind_name(*kind)?, ended(*kind, *outcome)?);
            Some(format!("a {name}, {}{ended}", in_flight(*high, *low)))
        }
        (Call::Clear, [0, high, low]) => {
            let gone = u16::from_be_bytes([*high, *low]);
            Some(format!("{} went", count(gone.into(), "version")))
        }
        (Call::Show { .. }, [0, frame @ ..]) => {
            let frame = LogFrame::parse(frame).ok().filter(|frame| frame.receiver.is_none())?;
            Some(log::sentence(&frame))
        }
        (Call::HandOver { giver, receiver }, [0, frame @ ..]) => {
            let frame = LogFrame::parse(frame).ok()?;
            let named = (frame.client.into(), frame.receiver.map(u64::from));
            (named == (*giver, Some(*receiver))).then(|| log::sentence(&frame))
        }
        (Call::Compare { first, second }, [0, standing]) => stands(*standing, *first, *second),
        _ => None,
    }
}

/// How the first client's view stands to the second's.
fn stands(standing: u8, first: u64, second: u64) -> Option<String> {
    match standing.into() {
        SAME => Some("they are the same".to_owned()),
        BEHIND => Some(format!("client {first} is behind client {second}")),
        AHEAD => Some(format!("client {first} is ahead of client {second}")),
        NEITHER => Some("each has an entry later than the other's".to_owned()),
        _ => None,
    }
}

fn in_flight(high: u8, low: u8) -> String {
    let messages = u16::from_be_bytes([high, low]);
    format!("{} in flight", count(messages.into(), "message"))
}

fn kind_name(kind: u8) -> Option<&'static str> {
    match kind {
        1 => Some("prepare"),
        2 => Some("prepared reply"),
        3 => Some("commit"),
        4 => Some("get"),
        5 => Some("got reply"),
        6 => Some("first get"),
        7 => Some("first reply"),
        _ => None,
    }
}

/// A prepared reply ends a write, mixed or not; a got that ends one ends a mixed transaction.
fn ended(kind: u8, outcome: u8) -> Option<&'static str> {
    match (kind, outcome) {
        (_, 0) => Some(""),
        (_, 1) => Some("; with it a read ends"),
        (5, 2) => Some("; with it a mixed transaction ends"),
        (_, 2) => Some("; with it a write ends"),
        _ => None,
    }
}
