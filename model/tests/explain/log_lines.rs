//! Log lines.

use koolvent_model::explain::log;

/// What is said of the log before its verdict.
fn assert_lines(text: &str, said: &str) {
    let all = log(text.as_bytes(), None);
    let (lines, verdict) = all.split_at(all.find("verdict: ").expect("a verdict"));
    assert_eq!(lines, said);
    assert_eq!(verdict.lines().count(), 1);
}

#[test]
fn a_write_and_reads() {
    let text = "\
20010000000000000003000000010000000700000008
21020000000000000003000000010100000007000000000000000000
21020000000000000002000000010100000008
210800000000000000018000000008ffffffff
";
    let said = "\
log line 1: write number 1 of client 1: item 0, value 7; item 1, value 8
log line 2: client 2 shows item 0 from write number 1 of client 1, value 7; item 1 initial
log line 3: client 2 shows item 1 from write number 1 of client 1, value 8
log line 4: client 8 shows item 0 from write number 2147483648 of client 8, value 4294967295
";
    assert_lines(text, said);
}

#[test]
fn a_fast_read() {
    assert_lines(
        "23020000000000000003000000010100000007000000000000000000\n",
        "log line 1: client 2 shows by a fast read item 0 from write number 1 of client 1, value 7; \
         item 1 initial\n",
    );
}

#[test]
fn a_mixed_transaction() {
    assert_lines(
        "24020000000000000001000000010100000007000000000000000200000003000000a9\n",
        "log line 1: client 2 shows by a mixed transaction item 0 from write number 1 of client 1, \
         value 7; write number 3 of client 2: item 1, value 169\n",
    );
}

#[test]
fn a_hand_over() {
    assert_lines("220108\n", "log line 1: client 1 hands over to client 8\n");
}

#[test]
fn an_initial_item_with_a_value() {
    assert_lines(
        "21020000000000000001000000000000000005\n",
        "log line 1: client 2 shows item 0 initial, value 5\n",
    );
}

#[test]
fn a_malformed_line_among_others() {
    let text = "20010000000000000001000000010000000G\n21020000000000000001000000000000000000\n";
    let said = "\
log line 1 is malformed: no digit but G at column 36
log line 2: client 2 shows item 0 initial
";
    assert_lines(text, said);
}

#[test]
fn an_empty_log() {
    assert_lines("", "");
}
