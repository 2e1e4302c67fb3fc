//! Log lines, and the verdict on a log.

use super::words::valued;
use crate::frames::log::{Entry, LogFrame, Manner, WritePart};
use crate::judge::findings::{source, FINDINGS};
use crate::judge::well_formed::lines;
use crate::judge::{reasoned, Verdict};
use crate::stamp::Stamp;

/// What each line of the log says, and then the verdict on it, with what bears it out. A verdict
/// that was handed over is told where it is another.
pub fn log(log: &[u8], handed_over: Option<&[u8]>) -> String {
    let mut said = String::new();
    for (number, line) in (1..).zip(lines(log)) {
        said += &match line {
            Ok(frame) => format!("log line {number}: {}\n", sentence(&frame)),
            Err(wrong) => format!("log line {number} is malformed: {wrong}\n"),
        };
    }
    let (verdict, why) = reasoned(&FINDINGS, log);
    said += &format!("verdict: {}\n", verdict_words(verdict, &why));
    let handed_over = handed_over.map(|line| line.strip_suffix(b"\n").unwrap_or(line));
    match handed_over {
        Some(other) if other != verdict.text().as_bytes() => {
            let other = other.escape_ascii();
            said + &format!("the verdict handed over is another: {other}\n")
        }
        _ => said,
    }
}

fn verdict_words(verdict: Verdict, why: &str) -> String {
    match verdict {
        Verdict::TooLong => {
            format!("refused by 16: over 32,768 bytes or over 256 line ends; {why}")
        }
        Verdict::Malformed { line } => {
            format!("refused by 15: log line {line} is malformed: {why}")
        }
        Verdict::CLEAN => "clean: no read of the log is at fault".to_owned(),
        Verdict::Judged { finding, line } => {
            let name = match finding {
                1 => "is unwritten",
                2 => "is fractured",
                _ => "misses an own write",
            };
            format!("log line {line} {name}: it shows {why}")
        }
    }
}

/// What the frame says.
pub fn sentence(frame: &LogFrame) -> String {
    let client = frame.client;
    let shown = frame.read.as_ref().map(|read| {
        let entries: Vec<String> = frame.shown().iter().map(entry_words).collect();
        let how = match read.manner {
            Manner::Ordinary if frame.write.is_some() => "shows by a mixed transaction",
            Manner::Ordinary => "shows",
            Manner::Fast => "shows by a fast read",
        };
        format!("client {client} {how} {}", entries.join("; "))
    });
    let wrote = frame.write.as_ref().map(|WritePart { set, number, values }| {
        format!("write number {number} of client {client}: {}", valued(*set, values))
    });
    let handed_over =
        frame.receiver.map(|receiver| format!("client {client} hands over to client {receiver}"));
    let parts: Vec<String> = shown.into_iter().chain(wrote).chain(handed_over).collect();
    parts.join("; ")
}

fn entry_words(entry: &Entry) -> String {
    let source = source(entry);
    match (entry.stamp, entry.value) {
        (Stamp::INITIAL, 0) => source,
        (_, value) => format!("{source}, value {value}"),
    }
}
