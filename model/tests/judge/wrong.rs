//! Wrong judges: the hand-worked examples and the random logs each tell them from a right one.

use koolvent_model::frames::hex::from_line;
use koolvent_model::frames::log::{LogFrame, Manner};
use koolvent_model::judge::findings::{fractured, own_write_missed, unwritten, Finding};
use koolvent_model::judge::generate::{
    every_small_log, every_small_log_with_hand_overs, random_log, random_long_log, read_and_write,
    with_kinds,
};
use koolvent_model::judge::{examples, judge, judge_by, Verdict};
use koolvent_model::random::Random;
use koolvent_model::stamp::Stamp;
use std::collections::BTreeSet;

/// The names of the examples to which a judge gives a wrong verdict.
fn mistaken(judge: &dyn Fn(&[u8]) -> Verdict) -> Vec<&'static str> {
    examples::all()
        .into_iter()
        .filter(|example| judge(&example.log).text() != example.verdict)
        .map(|example| example.name)
        .collect()
}

/// The example catches the wrong judge, and so does one of five thousand random logs.
fn assert_caught(wrong: &dyn Fn(&[u8]) -> Verdict, example: &str) {
    let mistaken = mistaken(wrong);
    assert!(mistaken.contains(&example), "wrong on {mistaken:?} only");
    let mut random = Random::new(5);
    let mut logs = (0..5_000).map(|_| random_log(&mut random));
    assert!(logs.any(|log| wrong(&log) != judge(&log)));
}

/// A judge with these definitions of findings 1, 2 and 3.
fn judge_with(findings: [Finding; 3]) -> impl Fn(&[u8]) -> Verdict {
    let [first, second, third] = findings;
    move |log| judge_by(&[(1, first), (2, second), (3, third)], log)
}

#[test]
fn a_right_judge_is_not_caught() {
    assert_eq!(mistaken(&judge), Vec::<&str>::new());
    let unchanged = judge_with([unwritten, fractured, own_write_missed]);
    assert_eq!(mistaken(&unchanged), Vec::<&str>::new());
}

#[test]
fn clean_to_all_is_caught() {
    assert_caught(&|_| Verdict::CLEAN, "fractured read");
    assert_caught(&|log| judge_by(&[], log), "fractured read");
}

#[test]
fn made_up_line_is_caught() {
    let made_up = |log: &[u8]| match judge(log) {
        Verdict::Judged { finding, .. } if finding != 0 => Verdict::Judged { finding, line: 2 },
        Verdict::Malformed { .. } => Verdict::Malformed { line: 1 },
        other => other,
    };
    assert_caught(&made_up, "fault at line 256");
    assert_caught(&made_up, "256 writes and a digit");
}

#[test]
fn own_writes_counted_below_the_read_are_caught() {
    fn anywhere(log: &[LogFrame], place: usize) -> Option<String> {
        let own = log.iter().filter(|frame| frame.client == log[place].client);
        let own: Vec<_> = own.flat_map(LogFrame::written).collect();
        let fault = log[place]
            .shown()
            .iter()
            .any(|entry| own.iter().any(|own| own.item == entry.item && entry.stamp < own.stamp));
        fault.then(String::new)
    }
    let wrong = judge_with([unwritten, fractured, anywhere]);
    assert_caught(&wrong, "own write below the read");
}

/// Finding 2 with another comparison of the sibling's stamp and the write's, and over some frames.
fn fractured_if(
    read: &LogFrame,
    frames: &[LogFrame],
    behind: fn(Stamp, Stamp) -> bool,
) -> Option<String> {
    let shown = read.shown();
    let siblings: Vec<_> = frames.iter().flat_map(LogFrame::written).collect();
    let fractured = shown.iter().any(|entry| {
        siblings
            .iter()
            .filter(|sibling| sibling.stamp == entry.stamp && sibling.item != entry.item)
            .any(|sibling| {
                shown
                    .iter()
                    .any(|other| other.item == sibling.item && behind(other.stamp, entry.stamp))
            })
    });
    fractured.then(String::new)
}

#[test]
fn fracture_by_a_stamp_not_later_is_caught() {
    fn not_later(log: &[LogFrame], place: usize) -> Option<String> {
        fractured_if(&log[place], log, |other, stamp| stamp >= other)
    }
    let wrong = judge_with([unwritten, not_later, own_write_missed]);
    assert_caught(&wrong, "whole read");
}

#[test]
fn fracture_by_clients_before_numbers_is_caught() {
    fn clients_first(log: &[LogFrame], place: usize) -> Option<String> {
        fractured_if(&log[place], log, |other, stamp| {
            (other.client, other.number) < (stamp.client, stamp.number)
        })
    }
    let wrong = judge_with([unwritten, clients_first, own_write_missed]);
    assert_caught(&wrong, "greater number of a smaller client");
}

#[test]
fn fracture_by_numbers_alone_is_caught() {
    fn numbers_alone(log: &[LogFrame], place: usize) -> Option<String> {
        fractured_if(&log[place], log, |other, stamp| other.number < stamp.number)
    }
    let wrong = judge_with([unwritten, numbers_alone, own_write_missed]);
    assert_caught(&wrong, "equal numbers, sibling of a smaller client");
}

#[test]
fn fracture_by_writes_above_alone_is_caught() {
    fn above(log: &[LogFrame], place: usize) -> Option<String> {
        fractured_if(&log[place], &log[..place], |other, stamp| other < stamp)
    }
    let wrong = judge_with([unwritten, above, own_write_missed]);
    assert_caught(&wrong, "fractured by a write below");
}

#[test]
fn writes_sought_above_alone_are_caught() {
    fn not_above(log: &[LogFrame], place: usize) -> Option<String> {
        unwritten(&log[..=place], place)
    }
    let wrong = judge_with([not_above, fractured, own_write_missed]);
    assert_caught(&wrong, "write below the read");
}

#[test]
fn values_not_compared_are_caught() {
    fn stamp_and_item(log: &[LogFrame], place: usize) -> Option<String> {
        let writes: Vec<_> = log.iter().flat_map(LogFrame::written).collect();
        let fault = log[place].shown().iter().any(|entry| {
            entry.stamp != Stamp::INITIAL
                && !writes
                    .iter()
                    .any(|write| (write.stamp, write.item) == (entry.stamp, entry.item))
        });
        fault.then(String::new)
    }
    let wrong = judge_with([stamp_and_item, fractured, own_write_missed]);
    assert_caught(&wrong, "value of another item");
    assert_caught(&wrong, "initial stamp with a value");
}

#[test]
fn writes_of_any_client_counted_as_own_are_caught() {
    fn of_any_client(log: &[LogFrame], place: usize) -> Option<String> {
        let above: Vec<_> = log[..place].iter().flat_map(LogFrame::written).collect();
        let fault = log[place].shown().iter().any(|entry| {
            above.iter().any(|write| write.item == entry.item && entry.stamp < write.stamp)
        });
        fault.then(String::new)
    }
    let wrong = judge_with([unwritten, fractured, of_any_client]);
    assert_caught(&wrong, "both initial to another client");
}

/// Finding 3 with another reading of what counts as a client's own: at this line of the log, what
/// the writes at these lines wrote.
fn missed_by(log: &[LogFrame], place: usize, own: impl Fn(usize) -> bool) -> Option<String> {
    if log[place].read.as_ref()?.manner != Manner::Ordinary {
        return None;
    }
    let own: Vec<_> =
        (0..log.len()).filter(|line| own(*line)).flat_map(|line| log[line].written()).collect();
    let fault = log[place]
        .shown()
        .iter()
        .any(|entry| own.iter().any(|own| own.item == entry.item && entry.stamp < own.stamp));
    fault.then(String::new)
}

/// Whether a line hands over from one client to another.
fn hands_over(log: &[LogFrame], line: usize, giver: u8, receiver: u8) -> bool {
    (log[line].client, log[line].receiver) == (giver, Some(receiver))
}

#[test]
fn hand_overs_that_count_for_nothing_are_caught() {
    fn itself_alone(log: &[LogFrame], place: usize) -> Option<String> {
        missed_by(log, place, |line| line < place && log[line].client == log[place].client)
    }
    let wrong = judge_with([unwritten, fractured, itself_alone]);
    assert_caught(&wrong, "giver's write missed");
}

#[test]
fn inheritance_not_handed_on_is_caught() {
    fn from_givers_alone(log: &[LogFrame], place: usize) -> Option<String> {
        let reader = log[place].client;
        missed_by(log, place, |line| {
            let writer = log[line].client;
            let taken = |below: usize| hands_over(log, below, writer, reader);
            line < place && (writer == reader || (line..place).any(taken))
        })
    }
    let wrong = judge_with([unwritten, fractured, from_givers_alone]);
    assert_caught(&wrong, "chain in order");
}

#[test]
fn writes_below_the_hand_over_counted_are_caught() {
    fn wherever_it_stands(log: &[LogFrame], place: usize) -> Option<String> {
        let mut counted = vec![log[place].client];
        for frame in log[..place].iter().rev() {
            if frame.receiver.is_some_and(|receiver| counted.contains(&receiver)) {
                counted.push(frame.client);
            }
        }
        missed_by(log, place, |line| line < place && counted.contains(&log[line].client))
    }
    let wrong = judge_with([unwritten, fractured, wherever_it_stands]);
    assert_caught(&wrong, "giver's write below the hand-over");
    assert_caught(&wrong, "giver's later write below the hand-over");
}

#[test]
fn hand_overs_in_any_order_are_caught() {
    fn in_any_order(log: &[LogFrame], place: usize) -> Option<String> {
        let mut counted = vec![log[place].client];
        for _ in 0..8 {
            for frame in &log[..place] {
                if frame.receiver.is_some_and(|receiver| counted.contains(&receiver)) {
                    counted.push(frame.client);
                }
            }
            counted.sort();
            counted.dedup();
        }
        missed_by(log, place, |line| line < place && counted.contains(&log[line].client))
    }
    let wrong = judge_with([unwritten, fractured, in_any_order]);
    assert_caught(&wrong, "chain out of order");
}

/// Finding 3 by a walk from the top, in which a hand-over changes what counts for whom.
fn missed_after(
    log: &[LogFrame],
    place: usize,
    hand_over: impl Fn(&mut [BTreeSet<usize>; 9], usize, usize),
) -> Option<String> {
    let mut own: [BTreeSet<usize>; 9] = Default::default();
    for (line, frame) in log[..place].iter().enumerate() {
        match frame.receiver {
            Some(receiver) => hand_over(&mut own, frame.client.into(), receiver.into()),
            None => {
                own[usize::from(frame.client)].insert(line);
            }
        }
    }
    missed_by(log, place, |line| own[usize::from(log[place].client)].contains(&line))
}

/// What counts for one client counts for another too.
fn hand(own: &mut [BTreeSet<usize>; 9], from: usize, to: usize) {
    let given = own[from].clone();
    own[to].extend(given);
}

/// The model's judge goes up from the read; from the top the same is found.
#[test]
fn hand_overs_from_the_top_are_not_caught() {
    fn forward(log: &[LogFrame], place: usize) -> Option<String> {
        missed_after(log, place, hand)
    }
    let same = judge_with([unwritten, fractured, forward]);
    assert_eq!(mistaken(&same), Vec::<&str>::new());
    let mut random = Random::new(6);
    for log in (0..10_000).map(|_| random_log(&mut random)) {
        assert_eq!(same(&log), judge(&log));
    }
}

#[test]
fn hand_overs_to_the_giver_are_caught() {
    fn other_way(log: &[LogFrame], place: usize) -> Option<String> {
        missed_after(log, place, |own, giver, receiver| hand(own, receiver, giver))
    }
    let wrong = judge_with([unwritten, fractured, other_way]);
    assert_caught(&wrong, "receiver's write missed by the giver");
}

#[test]
fn a_giver_that_loses_what_it_hands_over_is_caught() {
    fn moved(log: &[LogFrame], place: usize) -> Option<String> {
        missed_after(log, place, |own, giver, receiver| {
            let given = std::mem::take(&mut own[giver]);
            own[receiver].extend(given);
        })
    }
    let wrong = judge_with([unwritten, fractured, moved]);
    assert_caught(&wrong, "giver's write missed by the giver");
}

#[test]
fn a_receiver_that_loses_its_own_is_caught() {
    fn replaced(log: &[LogFrame], place: usize) -> Option<String> {
        missed_after(log, place, |own, giver, receiver| own[receiver] = own[giver].clone())
    }
    let wrong = judge_with([unwritten, fractured, replaced]);
    assert_caught(&wrong, "receiver's own write missed");
}

#[test]
fn hand_overs_not_counted_as_lines_are_caught() {
    let without = |log: &[u8]| {
        let lines = log.split_inclusive(|byte| *byte == b'\n');
        match judge(log) {
            Verdict::Judged { finding, line } => {
                let above = lines.take(line).filter(|line| line.starts_with(b"22"));
                Verdict::Judged { finding, line: line - above.count() }
            }
            other => other,
        }
    };
    assert_caught(&without, "giver's write missed");
}

#[test]
fn a_hand_over_to_oneself_taken_is_caught() {
    let lax = |log: &[u8]| {
        let lines = log.split_inclusive(|byte| *byte == b'\n');
        let to_oneself =
            |line: &[u8]| line.len() == 7 && line.starts_with(b"22") && line[2..4] == line[4..6];
        judge(&lines.filter(|line| !to_oneself(line)).collect::<Vec<_>>().concat())
    };
    assert_caught(&lax, "hand-over to the giver itself");
}

#[test]
fn fast_reads_judged_as_ordinary_ones_are_caught() {
    let strict = |log: &[u8]| judge(&with_kinds(log, b"23", b"21"));
    assert_caught(&strict, "own write missed by a fast read");
    assert_caught(&strict, "giver's write missed by a fast read");
    let mut random = Random::new(7);
    let long = (0..100).map(|_| random_long_log(&mut random));
    assert!(long.filter(|log| strict(log) != judge(log)).count() >= 5);
}

#[test]
fn ordinary_reads_judged_as_fast_ones_are_caught() {
    let lax = |log: &[u8]| judge(&with_kinds(log, b"21", b"23"));
    assert_caught(&lax, "own write missed below a fast read");
}

#[test]
fn fast_reads_let_pass_are_caught() {
    fn is_fast(frame: &LogFrame) -> bool {
        frame.bytes()[0] == 0x23
    }
    fn not_unwritten(log: &[LogFrame], place: usize) -> Option<String> {
        unwritten(log, place).filter(|_| !is_fast(&log[place]))
    }
    fn not_fractured(log: &[LogFrame], place: usize) -> Option<String> {
        fractured(log, place).filter(|_| !is_fast(&log[place]))
    }
    let wrong = judge_with([not_unwritten, fractured, own_write_missed]);
    assert_caught(&wrong, "unwritten fast read");
    let wrong = judge_with([unwritten, not_fractured, own_write_missed]);
    assert_caught(&wrong, "fractured fast read");
}

#[test]
fn fast_reads_refused_are_caught() {
    let refusing = |log: &[u8]| judge(&with_kinds(log, b"23", b"26"));
    assert_caught(&refusing, "whole fast read");
}

/// The log with each mixed line as these lines, made of its read part and its write part.
fn with_mixed_as(log: &[u8], made: fn(String, String) -> String) -> Vec<u8> {
    let lines = log.split_inclusive(|byte| *byte == b'\n');
    let made = lines.map(|line| {
        let frame = from_line(line).ok().and_then(|bytes| LogFrame::parse(&bytes).ok());
        match frame {
            Some(LogFrame { client, read: Some(read), write: Some(write), receiver }) => {
                let part = LogFrame { client, read: None, write: None, receiver };
                let read = LogFrame { read: Some(read), ..part.clone() }.line();
                made(read, LogFrame { write: Some(write), ..part }.line()).into_bytes()
            }
            _ => line.to_vec(),
        }
    });
    made.collect::<Vec<_>>().concat()
}

/// The verdict on the log with more lines, with its line as in this one.
fn judge_in_place(log: &[u8], longer: &[u8]) -> Verdict {
    let lines = |log: &[u8]| log.split_inclusive(|byte| *byte == b'\n').count();
    let line_in = |line: usize| {
        let above: Vec<&[u8]> = log.split_inclusive(|byte| *byte == b'\n').collect();
        (1..=above.len()).find(|number| {
            let text = above[..*number].concat();
            lines(&with_mixed_as(&text, |read, write| read + &write)) >= line
        })
    };
    match judge(longer) {
        Verdict::Judged { finding, line } if finding != 0 => {
            Verdict::Judged { finding, line: line_in(line).expect("a line of the log") }
        }
        Verdict::Malformed { line } => {
            Verdict::Malformed { line: line_in(line).expect("a line of the log") }
        }
        other => other,
    }
}

/// "The judge takes its read part as above its own write, and its write part as a `20` line."
#[test]
fn a_mixed_line_is_judged_as_its_read_part_above_its_write_part() {
    let mut random = Random::new(9);
    let examples = examples::findings().into_iter().map(|example| example.log);
    let small = every_small_log().into_iter().chain(every_small_log_with_hand_overs());
    let mut logs: Vec<Vec<u8>> = examples.chain(small.map(|log| read_and_write(&log))).collect();
    logs.extend((0..5_000).map(|_| random_log(&mut random)));
    let mut split = 0;
    for log in &logs {
        let longer = with_mixed_as(log, |read, write| read + &write);
        split += usize::from(longer != *log);
        assert_eq!(judge_in_place(log, &longer), judge(log));
    }
    assert!(split >= 45_360 + 15_552 + 500, "{split}");
}

#[test]
fn mixed_lines_judged_otherwise_are_caught() {
    let below = |log: &[u8]| judge_in_place(log, &with_mixed_as(log, |read, write| write + &read));
    assert_caught(&below, "item initial to its own writer");
    let unread = |log: &[u8]| judge(&with_mixed_as(log, |_, write| write));
    assert_caught(&unread, "fractured mixed transaction");
    let unwritten = |log: &[u8]| judge(&with_mixed_as(log, |read, _| read));
    assert_caught(&unwritten, "read of a mixed write");
    let fast = |log: &[u8]| {
        let as_fast = with_mixed_as(log, |read, write| read.replacen("21", "23", 1) + &write);
        judge_in_place(log, &as_fast)
    };
    assert_caught(&fast, "own write missed by a mixed transaction");
    let refusing = |log: &[u8]| judge(&with_kinds(log, b"24", b"26"));
    assert_caught(&refusing, "whole mixed transaction");
}

/// A log that is malformed is judged with its mixed lines' read parts alone, which have no number.
#[test]
fn mixed_numbers_left_out_of_the_strict_rise_are_caught() {
    let unnumbered = |log: &[u8]| match judge(log) {
        Verdict::Malformed { .. } => judge(&with_mixed_as(log, |read, _| read)),
        other => other,
    };
    assert_caught(&unnumbered, "write number of a mixed one above");
    assert_caught(&unnumbered, "mixed number of a write above");
    assert_caught(&unnumbered, "equal mixed numbers");
}

#[test]
fn findings_in_another_order_are_caught() {
    let later_first =
        |log: &[u8]| judge_by(&[(1, unwritten), (3, own_write_missed), (2, fractured)], log);
    assert_caught(&later_first, "fractured and missed on one line");
}

#[test]
fn lowest_finding_of_the_whole_log_is_caught() {
    let lowest = |log: &[u8]| {
        let findings: [(u8, Finding); 3] = [(1, unwritten), (2, fractured), (3, own_write_missed)];
        let verdicts = findings.map(|finding| judge_by(&[finding], log));
        let fault = verdicts.into_iter().find(|verdict| *verdict != Verdict::CLEAN);
        fault.unwrap_or(Verdict::CLEAN)
    };
    assert_caught(&lowest, "missed above unwritten");
}

#[test]
fn findings_before_malformed_lines_are_caught() {
    let hasty = |log: &[u8]| {
        let lines: Vec<&[u8]> = log.split_inclusive(|byte| *byte == b'\n').collect();
        let faults = (1..=lines.len()).map(|count| judge(&lines[..count].concat()));
        let mut faults = faults.filter(|verdict| *verdict != Verdict::CLEAN);
        faults.next().unwrap_or(Verdict::CLEAN)
    };
    assert_caught(&hasty, "unwritten read above a bad line");
}
