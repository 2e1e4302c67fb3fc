//! The judge on the logs whose verdicts were worked out by hand.

use koolvent_model::judge::examples::{self, Example};
use koolvent_model::judge::{judge, Verdict};
use std::collections::BTreeSet;

fn assert_verdicts(examples: Vec<Example>) {
    assert!(!examples.is_empty());
    for Example { name, log, verdict } in examples {
        assert_eq!(judge(&log).text(), verdict, "{name}");
    }
}

#[test]
fn bench_examples() {
    assert_verdicts(examples::bench());
}

#[test]
fn findings_and_their_nearest_clean_logs() {
    assert_verdicts(examples::findings());
}

#[test]
fn malformed_lines_and_their_nearest_accepted_ones() {
    assert_verdicts(examples::malformed());
}

#[test]
fn limits_of_length_and_the_greatest_line_numbers() {
    assert_verdicts(examples::limits());
}

#[test]
fn limit_logs_have_the_lengths_they_are_named_for() {
    let log = |name| {
        let mut all = examples::limits().into_iter();
        all.find(|example| example.name == name).unwrap().log
    };
    let line_ends = |log: &[u8]| log.iter().filter(|byte| **byte == b'\n').count();
    assert_eq!(log("32,768 bytes").len(), 32_768);
    assert_eq!(log("32,768 bytes, the last no line end").len(), 32_768);
    assert_eq!(log("32,769 bytes, the last no line end").len(), 32_769);
    assert_eq!(log("32,769 bytes, the last a line end").len(), 32_769);
    let both = log("32,768 bytes and 256 line ends");
    assert_eq!((both.len(), line_ends(&both)), (32_768, 256));
    assert_eq!(line_ends(&log("256 writes")), 256);
    assert_eq!(line_ends(&log("257 writes")), 257);
    assert_eq!(line_ends(&log("256 writes and a digit")), 256);
    assert_eq!(line_ends(&log("empty line 100 of 256 and a tail")), 256);
}

#[test]
fn example_names_are_unique() {
    let names: Vec<&str> = examples::all().iter().map(|example| example.name).collect();
    let distinct: BTreeSet<&str> = names.iter().copied().collect();
    assert_eq!(distinct.len(), names.len());
}

#[test]
fn verdicts_as_bytes_and_as_numbers() {
    let malformed = Verdict::Malformed { line: 257 };
    let missed = Verdict::Judged { finding: 3, line: 256 };
    assert_eq!(Verdict::TooLong.bytes(), [16]);
    assert_eq!(malformed.bytes(), [15, 1, 1]);
    assert_eq!(missed.bytes(), [0, 3, 1, 0]);
    assert_eq!(Verdict::CLEAN.bytes(), [0, 0, 0, 0]);
    assert_eq!(Verdict::TooLong.number(), 16);
    assert_eq!(malformed.number(), 0x0101_000f);
    assert_eq!(missed.number(), 0x0100_0300);
    assert_eq!(Verdict::CLEAN.number(), 0);
}
