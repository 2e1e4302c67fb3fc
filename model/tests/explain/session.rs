//! Document 01's whole session.

use koolvent_model::explain::session;

/// Each frame, its answer, and what they say.
pub const SESSION: [(&str, &str, &str); 19] = [
    (
        "01020202",
        "00",
        "fresh start with 2 clients, 2 partitions, 2 items: accepted",
    ),
    (
        "030100000000000000030000000700000008",
        "000002",
        "client 1 starts to write item 0, value 7; item 1, value 8: accepted, 2 messages in flight",
    ),
    (
        "040000",
        "0001000200",
        "the message at place 0 is delivered: a prepare, 2 messages in flight",
    ),
    (
        "040000",
        "0001000200",
        "the message at place 0 is delivered: a prepare, 2 messages in flight",
    ),
    (
        "040000",
        "0002000100",
        "the message at place 0 is delivered: a prepared reply, 1 message in flight",
    ),
    (
        "040000",
        "0002000202",
        "the message at place 0 is delivered: a prepared reply, 2 messages in flight; with it a write ends",
    ),
    (
        "040000",
        "0003000100",
        "the message at place 0 is delivered: a commit, 1 message in flight",
    ),
    (
        "02020000000000000003",
        "000003",
        "client 2 starts to read items 0 and 1: accepted, 3 messages in flight",
    ),
    (
        "040001",
        "0004000300",
        "the message at place 1 is delivered: a get, 3 messages in flight",
    ),
    (
        "040001",
        "0004000300",
        "the message at place 1 is delivered: a get, 3 messages in flight",
    ),
    (
        "040001",
        "0005000200",
        "the message at place 1 is delivered: a got reply, 2 messages in flight",
    ),
    (
        "040001",
        "0005000101",
        "the message at place 1 is delivered: a got reply, 1 message in flight; with it a read ends",
    ),
    (
        "0502",
        "0021020000000000000003000000000000000000000000000000000000",
        "client 2 is asked what it ended last: client 2 shows item 0 initial; item 1 initial",
    ),
    (
        "02020000000000000003",
        "000003",
        "client 2 starts to read items 0 and 1: accepted, 3 messages in flight",
    ),
    (
        "040001",
        "0004000300",
        "the message at place 1 is delivered: a get, 3 messages in flight",
    ),
    (
        "040001",
        "0004000300",
        "the message at place 1 is delivered: a get, 3 messages in flight",
    ),
    (
        "040001",
        "0005000200",
        "the message at place 1 is delivered: a got reply, 2 messages in flight",
    ),
    (
        "040001",
        "0005000101",
        "the message at place 1 is delivered: a got reply, 1 message in flight; with it a read ends",
    ),
    (
        "0502",
        "0021020000000000000003000000010100000007000000010100000008",
        "client 2 is asked what it ended last: client 2 shows item 0 from write number 1 of client 1, value 7; \
         item 1 from write number 1 of client 1, value 8",
    ),
];

/// What is said of one frame and its answer, each with its 0a.
pub fn said(frame: &str, answer: &str) -> String {
    let explained = session(format!("{frame}\n").as_bytes(), format!("{answer}\n").as_bytes());
    let rest = explained.strip_prefix(frame).expect("the frame first");
    let rest = rest.trim_start().strip_prefix(answer).expect("its answer");
    rest.trim().to_owned()
}

#[test]
fn each_frame_and_answer_is_said_in_words() {
    for (frame, answer, sentence) in SESSION {
        assert_eq!(said(frame, answer), sentence);
    }
}

#[test]
fn frame_answer_and_sentence_stand_side_by_side() {
    let frames = b"01020202\n030100000000000000030000000700000008\n0501\n";
    let answers = b"00\n000002\n04\n";
    let expected = "\
01020202                              00            fresh start with 2 clients, 2 partitions, 2 items: accepted
030100000000000000030000000700000008  000002        client 1 starts to write item 0, value 7; item 1, value 8: accepted, 2 messages in flight
0501                                  04            client 1 is asked what it ended last: refused by 4: the client, or of a hand-over either, isn't idle
";
    assert_eq!(session(frames, answers), expected);
}

#[test]
fn what_is_longer_than_its_column_has_the_sentence_below() {
    let answer = "0021020000000000000001000000000000000000";
    let expected = format!(
        "0502                                  {answer}\n{}client 2 is asked what it ended last: client 2 shows item 0 initial\n",
        " ".repeat(52)
    );
    let explained = session(b"0502\n", format!("{answer}\n").as_bytes());
    assert_eq!(explained, expected);
}

#[test]
fn frames_without_answers_and_answers_without_frames_are_told() {
    assert!(session(b"0501\n", b"").ends_with("client 1 is asked what it ended last: no answer\n"));
    assert!(session(b"", b"00\n").ends_with("an answer to no frame\n"));
    assert_eq!(session(b"", b""), "");
}
