//! The exported call. Its logs are more than 200,000: 182,736 small ones and 80,000 random ones
//! alone.

use koolvent_model::judge::generate::{
    every_small_log, every_small_log_with_hand_overs, random_log, random_long_log, read_and_write,
    spoil, with_kinds,
};
use koolvent_model::judge::{examples, judge, Verdict};
use koolvent_model::proved;
use koolvent_model::random::Random;
use std::collections::BTreeMap;

/// The proved judge gives the verdict of the model's.
fn agreed(log: &[u8]) -> Verdict {
    let verdict = judge(log);
    let text = String::from_utf8_lossy(log);
    assert_eq!(proved::judge::judge(log), verdict.number(), "on\n{text}");
    verdict
}

/// What a verdict names, its line aside.
#[derive(Clone, Copy, Debug, PartialEq, Eq, PartialOrd, Ord)]
enum Sort {
    TooLong,
    Malformed,
    Finding(u8),
}

impl Sort {
    const CLEAN: Sort = Sort::Finding(0);
}

/// How often each sort of verdict was met.
#[derive(Debug, Default)]
struct Tally {
    met: BTreeMap<Sort, usize>,
}

impl Tally {
    fn count(&mut self, verdict: Verdict) {
        let sort = match verdict {
            Verdict::TooLong => Sort::TooLong,
            Verdict::Malformed { .. } => Sort::Malformed,
            Verdict::Judged { finding, .. } => Sort::Finding(finding),
        };
        *self.met.entry(sort).or_default() += 1;
    }

    /// Each of these was met so often.
    fn assert_met(&self, sorts: &[Sort], times: usize) {
        for sort in sorts {
            let met = self.met.get(sort).copied().unwrap_or(0);
            assert!(met >= times, "{sort:?} in {self:?}");
        }
    }
}

const FINDINGS: [Sort; 3] = [Sort::Finding(1), Sort::Finding(2), Sort::Finding(3)];

#[test]
fn examples_worked_out_by_hand() {
    for example in examples::all() {
        assert_eq!(agreed(&example.log).text(), example.verdict, "{}", example.name);
    }
}

#[test]
fn random_logs() {
    let mut random = Random::new(31);
    let mut tally = Tally::default();
    for _ in 0..40_000 {
        tally.count(agreed(&random_log(&mut random)));
    }
    tally.assert_met(&[Sort::Malformed, Sort::CLEAN], 5_000);
    tally.assert_met(&FINDINGS, 2_000);
}

#[test]
fn random_logs_spoiled_once_or_more() {
    let mut random = Random::new(32);
    let mut tally = Tally::default();
    for _ in 0..40_000 {
        let mut log = random_log(&mut random);
        for _ in 0..=random.below(3) {
            spoil(&mut log, &mut random);
        }
        tally.count(agreed(&log));
    }
    tally.assert_met(&[Sort::Malformed], 20_000);
    tally.assert_met(&[Sort::CLEAN], 400);
    tally.assert_met(&FINDINGS, 10);
}

#[test]
fn every_small_log_of_two_writes_and_a_read() {
    let logs = every_small_log();
    assert_eq!(logs.len(), 45_360);
    let mut tally = Tally::default();
    for log in &logs {
        tally.count(agreed(log));
    }
    tally.assert_met(&[Sort::Malformed, Sort::CLEAN], 1_000);
    tally.assert_met(&FINDINGS, 500);
}

#[test]
fn every_small_log_of_a_write_two_hand_overs_and_a_read() {
    let logs = every_small_log_with_hand_overs();
    assert_eq!(logs.len(), 15_552);
    let mut tally = Tally::default();
    for log in &logs {
        tally.count(agreed(log));
    }
    tally.assert_met(&[Sort::CLEAN, Sort::Finding(3)], 1_000);
}

/// The same logs with a fast read for the read, of which none misses an own write.
#[test]
fn every_small_log_of_a_fast_read() {
    let mut tally = Tally::default();
    for log in every_small_log().into_iter().chain(every_small_log_with_hand_overs()) {
        tally.count(agreed(&with_kinds(&log, b"21", b"23")));
    }
    tally.assert_met(&[Sort::Malformed, Sort::CLEAN], 1_000);
    tally.assert_met(&[Sort::Finding(1), Sort::Finding(2)], 500);
    assert_eq!(tally.met.get(&Sort::Finding(3)), None);
}

/// The same logs with a mixed transaction for the read, which writes item 0 too.
#[test]
fn every_small_log_of_a_mixed_transaction() {
    let mut tally = Tally::default();
    for log in every_small_log().into_iter().chain(every_small_log_with_hand_overs()) {
        tally.count(agreed(&read_and_write(&log)));
    }
    tally.assert_met(&[Sort::Malformed, Sort::CLEAN], 1_000);
    tally.assert_met(&FINDINGS, 500);
}

#[test]
fn faults_late_in_long_logs() {
    let mut random = Random::new(33);
    let mut tally = Tally::default();
    for _ in 0..500 {
        let verdict = agreed(&random_long_log(&mut random));
        match verdict {
            Verdict::Malformed { line: 1..150 } | Verdict::Judged { line: 1..150, .. } => (),
            _ => tally.count(verdict),
        }
    }
    tally.assert_met(&[Sort::Malformed, Sort::TooLong, Sort::CLEAN], 20);
    tally.assert_met(&FINDINGS, 5);
}

#[test]
fn limit_logs_spoiled() {
    let mut random = Random::new(34);
    let mut tally = Tally::default();
    let limits = examples::limits();
    for _ in 0..40 {
        for example in &limits {
            let mut log = example.log.clone();
            spoil(&mut log, &mut random);
            tally.count(agreed(&log));
        }
    }
    tally.assert_met(&[Sort::Malformed, Sort::TooLong], 100);
    tally.assert_met(&[Sort::CLEAN], 5);
}

/// Lengths and counts of line ends at the limits, whatever the bytes.
#[test]
fn noise_about_the_limits() {
    let mut random = Random::new(35);
    let mut tally = Tally::default();
    for length in 32_760..32_776 {
        for line_ends in [0, 1, 255, 256, 257, 258] {
            let mut log = vec![b'0' + random.below(10) as u8; length];
            for line in 0..line_ends {
                log[line * 120] = b'\n';
            }
            tally.count(agreed(&log));
        }
    }
    assert_eq!(tally.met[&Sort::TooLong], 7 * 6 + 9 * 2);
    assert_eq!(tally.met[&Sort::Malformed], 9 * 4);
}

#[test]
fn logs_far_past_the_limits() {
    for length in [65_535, 65_536, 65_537, 1 << 20] {
        assert_eq!(agreed(&vec![b'2'; length]), Verdict::TooLong);
        assert_eq!(agreed(&vec![b'\n'; length]), Verdict::TooLong);
    }
}

#[test]
fn noise() {
    let mut random = Random::new(36);
    for _ in 0..5_000 {
        let length = random.below(200);
        let any: Vec<u8> = (0..length).map(|_| random.below(256) as u8).collect();
        let digits: Vec<u8> = (0..length).map(|_| b"012\n"[random.below(4) as usize]).collect();
        agreed(&any);
        agreed(&digits);
    }
}
