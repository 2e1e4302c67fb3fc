//! Document 01's whole session.

use crate::support::set_of;
use koolvent_model::call::{Call, Event};
use koolvent_model::frames::hex::{from_line, number};
use koolvent_model::frames::store::{answer_line, parse, run};
use koolvent_model::stamp::Stamp;
use koolvent_model::store::message::Message;
use koolvent_model::store::Store;

/// Each line that the driver reads, and what it prints.
pub const SESSION: [(&str, &str); 19] = [
    ("01020202", "00"),
    ("030100000000000000030000000700000008", "000002"),
    ("040000", "0001000200"),
    ("040000", "0001000200"),
    ("040000", "0002000100"),
    ("040000", "0002000202"),
    ("040000", "0003000100"),
    ("02020000000000000003", "000003"),
    ("040001", "0004000300"),
    ("040001", "0004000300"),
    ("040001", "0005000200"),
    ("040001", "0005000101"),
    ("0502", "0021020000000000000003000000000000000000000000000000000000"),
    ("02020000000000000003", "000003"),
    ("040001", "0004000300"),
    ("040001", "0004000300"),
    ("040001", "0005000200"),
    ("040001", "0005000101"),
    ("0502", "0021020000000000000003000000010100000007000000010100000008"),
];

/// The session as a list of calls, each with what the paper has for an answer.
pub fn session() -> Vec<Event> {
    let line = |digits: &str| format!("{digits}\n").into_bytes();
    let event = |(frame, answer): &(&str, &str)| {
        let call = parse(&line(frame)).expect("a frame");
        let bytes = from_line(&line(answer)).expect("an answer");
        let mut output = call.output();
        let answer = match &call {
            Call::Show { .. } => {
                output[..bytes.len() - 1].copy_from_slice(&bytes[1..]);
                (bytes.len() as u64 - 1) << 8
            }
            Call::Deliver { .. } => {
                number(&bytes[1..2]) << 8 | number(&bytes[2..4]) << 16 | number(&bytes[4..]) << 32
            }
            _ => number(&bytes[1..]) << 8,
        };
        Event { call, answer, output }
    };
    SESSION.iter().map(event).collect()
}

#[test]
fn the_session_comes_out_call_by_call() {
    let mut store = Store::new();
    for event in session() {
        assert_eq!(store.make(event.call.clone()).1, event);
    }
}

#[test]
fn the_session_comes_out_as_a_whole() {
    let (lines, answers): (Vec<&str>, Vec<&str>) = SESSION.into_iter().unzip();
    let input = lines.join("\n") + "\n";
    let output = answers.join("\n") + "\n";
    assert_eq!(run(input.as_bytes()), output);
}

#[test]
fn the_second_read_shows_item_1_while_its_commit_is_still_in_flight() {
    let mut store = Store::new();
    for (line, _) in SESSION {
        answer_line(&mut store, format!("{line}\n").as_bytes());
    }
    let commit = Message::Commit { partition: 1, stamp: Stamp::new(1, 1) };
    let tables = &store.tables;
    assert_eq!(tables.messages, [commit]);
    assert_eq!(tables.client(2).last.set, set_of(&[0, 1]));
    assert_eq!(tables.client(2).last.stamps[1], Stamp::new(1, 1));
}
