//! Verdicts.

use koolvent_model::explain::log;

/// The last line that is said, of a log that the judge gave this verdict.
fn said(text: &str, verdict: &str) -> String {
    let said = log(text.as_bytes(), Some(format!("{verdict}\n").as_bytes()));
    said.lines().last().expect("a verdict").to_owned()
}

const WRITE: &str = "20010000000000000003000000010000000700000008\n";
const HALF_READ: &str = "21020000000000000003000000010100000007000000000000000000\n";

#[test]
fn clean() {
    assert_eq!(said("", "00000000"), "verdict: clean: no read of the log is at fault");
}

#[test]
fn fractured() {
    assert_eq!(
        said(&[WRITE, HALF_READ].concat(), "00020002"),
        "verdict: log line 2 is fractured: it shows item 0 from write number 1 of client 1, \
         which also wrote item 1, and item 1 older"
    );
}

#[test]
fn unwritten() {
    let cases = [
        (
            HALF_READ.to_owned(),
            "00010001",
            "log line 1 is unwritten: it shows item 0 from write number 1 of client 1, \
             a write that the log doesn't have",
        ),
        (
            [WRITE, "21020000000000000004000000010100000007\n"].concat(),
            "00010002",
            "log line 2 is unwritten: it shows item 2 from write number 1 of client 1, \
             which didn't write that item",
        ),
        (
            [WRITE, "21020000000000000002000000010100000007\n"].concat(),
            "00010002",
            "log line 2 is unwritten: it shows item 1 from write number 1 of client 1 with value 7, \
             which wrote 8 there",
        ),
        (
            "21020000000000000001000000000000000005\n".to_owned(),
            "00010001",
            "log line 1 is unwritten: it shows item 0 initial with value 5, not 0",
        ),
    ];
    for (text, verdict, sentence) in cases {
        assert_eq!(said(&text, verdict), format!("verdict: {sentence}"));
    }
}

#[test]
fn own_write_missed() {
    let initial = "21010000000000000001000000000000000000\n";
    assert_eq!(
        said(&[WRITE, initial].concat(), "00030002"),
        "verdict: log line 2 misses an own write: it shows item 0 initial, and client 1 itself wrote it later: \
         write number 1, log line 1"
    );
    let own = "200100000000000000010000000500000009\n";
    let other = "200300000000000000010000000400000006\n";
    let read = "21010000000000000001000000040300000006\n";
    assert_eq!(
        said(&[WRITE, own, other, read].concat(), "00030004"),
        "verdict: log line 4 misses an own write: it shows item 0 from write number 4 of client 3, \
         and client 1 itself wrote it later: write number 5, log line 2"
    );
}

#[test]
fn a_write_that_was_taken_over_missed() {
    let initial = "21030000000000000001000000000000000000\n";
    let cases = [
        (
            [WRITE, "220103\n", initial].concat(),
            "00030003",
            "log line 3 misses an own write: it shows item 0 initial, and client 1, whose writes \
             came to client 3 by the hand-over of log line 2, wrote it later: write number 1, log \
             line 1",
        ),
        (
            [WRITE, "220102\n", "220203\n", initial].concat(),
            "00030004",
            "log line 4 misses an own write: it shows item 0 initial, and client 1, whose writes \
             came to client 3 by the hand-overs of log lines 2 and 3, wrote it later: write number \
             1, log line 1",
        ),
        (
            ["220203\n", WRITE, "220104\n", "220402\n", "220203\n", initial].concat(),
            "00030006",
            "log line 6 misses an own write: it shows item 0 initial, and client 1, whose writes \
             came to client 3 by the hand-overs of log lines 3, 4 and 5, wrote it later: write \
             number 1, log line 2",
        ),
    ];
    for (text, verdict, sentence) in cases {
        assert_eq!(said(&text, verdict), format!("verdict: {sentence}"));
    }
}

#[test]
fn malformed() {
    assert_eq!(
        said(&[WRITE, "2A\n"].concat(), "0f0002"),
        "verdict: refused by 15: log line 2 is malformed: uppercase digit A at column 2"
    );
}

#[test]
fn too_long() {
    assert_eq!(
        said(&"\n".repeat(257), "10"),
        "verdict: refused by 16: over 32,768 bytes or over 256 line ends; the log has 257 bytes and 257 line ends"
    );
}

#[test]
fn a_verdict_handed_over_that_is_another() {
    let text = [WRITE, HALF_READ].concat();
    for verdict in ["00000000", "0f0001", "00010002", "00020001", "0F", "0002000"] {
        let other = format!("the verdict handed over is another: {verdict}");
        assert_eq!(said(&text, verdict), other);
    }
}

#[test]
fn without_a_verdict_handed_over_it_is_said_all_the_same() {
    let text = [WRITE, HALF_READ].concat();
    let both = [log(text.as_bytes(), None), log(text.as_bytes(), Some(b"00020002\n"))];
    assert_eq!(both[0], both[1]);
    assert!(both[0].contains("verdict: log line 2 is fractured"));
}
