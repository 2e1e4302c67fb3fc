//! Verdicts on every small log, on every log with one byte spoiled, and on every log cut off, as
//! counted and found by hand.

use koolvent_model::judge::generate::{
    every_small_log, every_small_log_with_hand_overs, with_kinds,
};
use koolvent_model::judge::{examples, judge, Verdict};

/// How often each sort of verdict was met.
#[derive(Debug, Default)]
struct Tally {
    malformed: usize,
    clean: usize,
    unwritten: usize,
    fractured: usize,
    own_write_missed: usize,
}

impl Tally {
    fn count(&mut self, verdict: Verdict) {
        match verdict {
            Verdict::Malformed { .. } => self.malformed += 1,
            Verdict::Judged { finding: 0, .. } => self.clean += 1,
            Verdict::Judged { finding: 1, .. } => self.unwritten += 1,
            Verdict::Judged { finding: 2, .. } => self.fractured += 1,
            Verdict::Judged { finding: 3, .. } => self.own_write_missed += 1,
            other => panic!("no verdict on a short log: {other:?}"),
        }
    }
}

/// Counted by hand. Of the 16 ordered pairs of stamps 6 don't rise for their client; each pair
/// goes with 9 pairs of sets, and each log with 3 readers and 3 places. Over the pairs of sets, a
/// reader can be shown 9 * 35 things: 89 are written, 16 of these fractured, and of the other 73
/// 25 miss the earlier write, 38 the later and 46 one or the other. Of the 10 rising pairs
/// of stamps, 2 are of one client, who has the earlier above it in the middle and both at the
/// end; in the other 8 the first writer has its write above in two places, the second in one.
#[test]
fn every_small_log_by_what_was_counted() {
    let logs = every_small_log();
    assert_eq!(logs.len(), 16 * 9 * 35 * 9);
    let mut tally = Tally::default();
    for log in &logs {
        tally.count(judge(log));
    }
    assert_eq!(tally.malformed, 6 * 9 * 35 * 9);
    assert_eq!(tally.unwritten, 10 * (9 * 35 - 89) * 9);
    assert_eq!(tally.fractured, 10 * 16 * 9);
    assert_eq!(tally.own_write_missed, 2 * (25 + 46) + 4 * (2 + 1) * (25 + 38));
    assert_eq!(tally.clean, 10 * 73 * 9 - tally.own_write_missed);
}

/// The same logs with a fast read for the read: what was missed is clean.
#[test]
fn every_small_log_of_a_fast_read_by_what_was_counted() {
    let mut tally = Tally::default();
    for log in every_small_log() {
        tally.count(judge(&with_kinds(&log, b"21", b"23")));
    }
    assert_eq!(tally.malformed, 6 * 9 * 35 * 9);
    assert_eq!(tally.unwritten, 10 * (9 * 35 - 89) * 9);
    assert_eq!(tally.fractured, 10 * 16 * 9);
    assert_eq!(tally.own_write_missed, 0);
    assert_eq!(tally.clean, 10 * 73 * 9);
}

/// Counted by hand. There are 3 writers, 36 pairs of hand-overs, 3 readers, 2 entries and 24
/// orders. A read that shows the write is clean, wherever the write stands. One that shows the
/// initial entry misses the write if that stands above it, in 12 of the orders, and is the reader's
/// own: with no hand-over between them, in 6 orders, for 36 pairs the writer's; with one, in 4
/// orders, for each of the 6 that the other may be, of the 6 that it may be all for the writer and
/// 2 for its receivers; with both, in 2 orders, for 36 the writer's and for 12 each of the two
/// others': 6 pairs whose first is to it from the writer, 5 more whose second is, and one by way of
/// the third.
#[test]
fn every_small_log_with_hand_overs_by_what_was_counted() {
    let logs = every_small_log_with_hand_overs();
    assert_eq!(logs.len(), 3 * 36 * 3 * 2 * 24);
    let mut tally = Tally::default();
    for log in &logs {
        tally.count(judge(log));
    }
    let missed = 3 * (6 * 36 + 4 * 6 * (6 + 2) + 2 * (36 + 2 * 12));
    assert_eq!(tally.own_write_missed, missed);
    assert_eq!(tally.clean, logs.len() - missed);
}

/// Short well-formed logs with several frames.
fn good_logs() -> Vec<Vec<u8>> {
    let names = [
        "session",
        "clean read above a fault",
        "equal numbers, sibling of a greater client",
        "chain in order",
        "own write missed below a fast read",
        "own mixed write missed by a mixed transaction",
    ];
    let logs: Vec<Vec<u8>> = examples::all()
        .into_iter()
        .filter(|example| names.contains(&example.name))
        .map(|example| example.log)
        .collect();
    assert_eq!(logs.len(), names.len());
    logs
}

/// The line of this place in the log, counted from 1.
fn line_at(log: &[u8], place: usize) -> usize {
    1 + log[..place].iter().filter(|byte| **byte == b'\n').count()
}

/// A digit put for a digit may leave a good log. Any other change of one byte leaves a character
/// that is no digit, an odd number of digits, or a frame cut short: always in the changed line.
#[test]
fn one_spoiled_byte_is_found_in_its_line() {
    let is_digit = |byte: u8| b"0123456789abcdef".contains(&byte);
    let mut still_well_formed = 0;
    for good in good_logs() {
        for place in 0..good.len() {
            for byte in 0..=255 {
                let mut log = good.clone();
                log[place] = byte;
                let verdict = judge(&log);
                let line = line_at(&good, place);
                if byte == good[place] || (is_digit(byte) && is_digit(good[place])) {
                    still_well_formed += usize::from(matches!(verdict, Verdict::Judged { .. }));
                } else {
                    assert_eq!(verdict, Verdict::Malformed { line }, "{place}, {byte}");
                }
            }
        }
    }
    assert!(still_well_formed >= 3_000, "{still_well_formed}");
}

#[test]
fn a_log_cut_within_a_line_is_malformed_there() {
    for good in good_logs() {
        for length in 0..good.len() {
            let verdict = judge(&good[..length]);
            if length == 0 || good[length - 1] == b'\n' {
                assert!(matches!(verdict, Verdict::Judged { .. }), "{length}");
            } else {
                let line = line_at(&good, length);
                assert_eq!(verdict, Verdict::Malformed { line }, "{length}");
            }
        }
    }
}
