//! A program that talks to the driver: it writes a line, waits for the answer, and writes the next.

use crate::program::{start, PATIENCE};
use koolvent_model::frames::store::answer_line;
use koolvent_model::store::Store;
use std::fs::read_to_string;
use std::io::{BufRead, BufReader, Write};
use std::process::{Child, ChildStdin, Stdio};
use std::sync::mpsc::{channel, Receiver, RecvTimeoutError};
use std::thread;
use std::time::Duration;

/// A moment in which an answer would come if it were on its way.
const MOMENT: Duration = Duration::from_millis(100);

struct Talk {
    program: Child,
    to: ChildStdin,
    answers: Receiver<String>,
}

impl Talk {
    fn new() -> Talk {
        let mut program = start(Stdio::piped(), Stdio::piped());
        let to = program.stdin.take().expect("piped");
        let from = program.stdout.take().expect("piped");
        let (sender, answers) = channel();
        thread::spawn(move || {
            for line in BufReader::new(from).lines() {
                if sender.send(line.expect("text")).is_err() {
                    return;
                }
            }
        });
        Talk { program, to, answers }
    }

    fn say(&mut self, bytes: &[u8]) {
        self.to.write_all(bytes).expect("the program reads on");
        self.to.flush().expect("a pipe");
    }

    fn answer(&self) -> String {
        let answer = self.answers.recv_timeout(PATIENCE);
        answer.expect("an answer while the program waits for more")
    }

    fn is_silent(&self) -> bool {
        self.answers.recv_timeout(MOMENT) == Err(RecvTimeoutError::Timeout)
    }

    /// The most memory that the program has had, in KiB.
    fn most_memory(&self) -> u64 {
        let status = read_to_string(format!("/proc/{}/status", self.program.id()));
        let status = status.expect("a process that runs");
        let line = status.lines().find(|line| line.starts_with("VmHWM:"));
        let number = line.and_then(|line| line.split_whitespace().nth(1));
        number.and_then(|number| number.parse().ok()).expect("a number")
    }
}

impl Drop for Talk {
    fn drop(&mut self) {
        // It may have ended already.
        let _ = self.program.kill();
        let _ = self.program.wait();
    }
}

/// A write and a read of two items, a fast read that fetches one again, a mixed transaction that a
/// got ends, showings, clearings, a hand-over, comparisons, checks, and lines that are refused.
const LINES: [&str; 50] = [
    "0501",
    "40",
    "410102",
    "43",
    "01020202",
    "43",
    "030100000000000000030000000700000008",
    "040000",
    "040000",
    "",
    "040000",
    "040000",
    "0501",
    "02010000000000000003",
    "040002",
    "04000",
    "040002",
    "040002",
    "040002",
    "40",
    "0501",
    "420201",
    "410102",
    "410101",
    "420201",
    "41010",
    "040000",
    "06020000000000000003",
    "060200000000000003",
    "040001",
    "040001",
    "040001",
    "040001",
    "040001",
    "040001",
    "0502",
    "07020000000000000001000000000000000200000009",
    "070200000000000000010000000000000002000009",
    "040002",
    "040002",
    "40",
    "0502",
    "040001",
    "040001",
    "0502",
    "43",
    "0G",
    "400",
    "430",
    "4343",
];

#[test]
fn a_line_then_its_answer_then_the_next() {
    let mut talk = Talk::new();
    let mut model = Store::new();
    for line in LINES {
        let line = format!("{line}\n");
        talk.say(line.as_bytes());
        assert_eq!(talk.answer(), answer_line(&mut model, line.as_bytes()), "{line}");
    }
    assert!(talk.is_silent());
}

#[test]
fn several_lines_at_once_have_all_their_answers() {
    let mut talk = Talk::new();
    let mut model = Store::new();
    talk.say((LINES.join("\n") + "\n").as_bytes());
    for line in LINES {
        let line = format!("{line}\n");
        assert_eq!(talk.answer(), answer_line(&mut model, line.as_bytes()), "{line}");
    }
}

#[test]
fn a_line_is_answered_though_the_next_has_begun_and_that_one_not_before_its_end() {
    let mut talk = Talk::new();
    talk.say(b"01020202\n0201000000");
    assert_eq!(talk.answer(), "00");
    assert!(talk.is_silent());
    talk.say(b"0000000003");
    assert!(talk.is_silent());
    talk.say(b"\n");
    assert_eq!(talk.answer(), "000002");
    for byte in *b"040000" {
        talk.say(&[byte]);
    }
    assert!(talk.is_silent());
    talk.say(b"\n");
    assert_eq!(talk.answer(), "0004000200");
}

#[test]
fn a_line_of_many_megabytes_takes_no_more_memory() {
    let mut talk = Talk::new();
    talk.say(b"01020202\n");
    assert_eq!(talk.answer(), "00");
    let before = talk.most_memory();
    for _ in 0..16 {
        talk.say(&[b'0'; 1 << 20]);
    }
    talk.say(b"\n02010000000000000003\n");
    assert_eq!((talk.answer(), talk.answer()), ("0f".into(), "000002".into()));
    assert!(talk.most_memory() < before + 1_024);
}
