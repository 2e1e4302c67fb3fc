//! The log judge: the first read of a log at fault, by the published definitions of read
//! atomicity and reading one's own writes. It knows nothing of the store.

pub mod examples;
pub mod findings;
pub mod generate;
pub mod well_formed;

use crate::frames::hex::to_hex;
use crate::frames::log::LogFrame;
use findings::{Finding, FINDINGS};
use well_formed::lines;

/// The most bytes in a log.
const MOST_BYTES: usize = 32_768;
/// The most line ends in a log.
const MOST_LINE_ENDS: usize = 256;

/// The judge's answer to a log.
#[derive(Clone, Copy, Debug, PartialEq, Eq)]
pub enum Verdict {
    /// Refusal 16: more bytes or line ends than the judge takes.
    TooLong,
    /// Refusal 15: the first malformed line, counted from 1.
    Malformed { line: usize },
    /// The finding and the line of the first read at fault; both 0 for a clean log.
    Judged { finding: u8, line: usize },
}

impl Verdict {
    /// The verdict on a log without fault.
    pub const CLEAN: Verdict = Verdict::Judged { finding: 0, line: 0 };

    /// The bytes of the answer.
    pub fn bytes(&self) -> Vec<u8> {
        match *self {
            Verdict::TooLong => vec![16],
            Verdict::Malformed { line } => [&[15], &line_bytes(line)[..]].concat(),
            Verdict::Judged { finding, line } => [&[0, finding], &line_bytes(line)[..]].concat(),
        }
    }

    /// The answer as a driver prints it, without a line end.
    pub fn text(&self) -> String {
        to_hex(&self.bytes())
    }

    /// The answer as one number: from the lowest bit up, the refusal or 0 in 8 bits,
    /// the finding in 8, the line in 16.
    pub fn number(&self) -> u64 {
        let (refusal, finding, line) = match *self {
            Verdict::TooLong => (16, 0, 0),
            Verdict::Malformed { line } => (15, 0, line),
            Verdict::Judged { finding, line } => (0, finding, line),
        };
        refusal + (u64::from(finding) << 8) + ((line as u64) << 16)
    }
}

/// A line number in two bytes. The limits of refusal 16 keep it at 257 or less.
fn line_bytes(line: usize) -> [u8; 2] {
    u16::try_from(line).expect("a judged log has at most 257 lines").to_be_bytes()
}

/// The verdict on a log.
pub fn judge(log: &[u8]) -> Verdict {
    judge_by(&FINDINGS, log)
}

/// The verdict on a log by these findings, the first in the list going before the others.
pub fn judge_by(findings: &[(u8, Finding)], log: &[u8]) -> Verdict {
    reasoned(findings, log).0
}

/// The verdict, and what bears it out.
pub fn reasoned(findings: &[(u8, Finding)], log: &[u8]) -> (Verdict, String) {
    let line_ends = log.iter().filter(|byte| **byte == b'\n').count();
    if log.len() > MOST_BYTES || line_ends > MOST_LINE_ENDS {
        let bytes = log.len();
        return (Verdict::TooLong, format!("the log has {bytes} bytes and {line_ends} line ends"));
    }
    let mut frames = Vec::new();
    for (line, frame) in (1..).zip(lines(log)) {
        match frame {
            Ok(frame) => frames.push(frame),
            Err(wrong) => return (Verdict::Malformed { line }, wrong),
        }
    }
    first_fault(findings, &frames)
}

/// The first line at fault, and there the first of the findings.
fn first_fault(findings: &[(u8, Finding)], log: &[LogFrame]) -> (Verdict, String) {
    for place in 0..log.len() {
        for (finding, fault) in findings {
            if let Some(fault) = fault(log, place) {
                let (finding, line) = (*finding, place + 1);
                return (Verdict::Judged { finding, line }, fault);
            }
        }
    }
    (Verdict::CLEAN, String::new())
}
