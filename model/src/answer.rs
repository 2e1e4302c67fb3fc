//! The answer to a call, as document 01's bytes and as one number.

use crate::call::Call;
use crate::frames::log::LogFrame;

/// What a delivery reports.
pub const NONE_ENDED: u64 = 0;
pub const READ_ENDED: u64 = 1;
/// A write, or a mixed transaction.
pub const WRITE_ENDED: u64 = 2;

/// How one view stands to another, by stamps alone.
pub const SAME: u64 = 0;
/// No entry is later, and one is earlier.
pub const BEHIND: u64 = 1;
/// No entry is earlier, and one is later.
pub const AHEAD: u64 = 2;
/// One entry is earlier, and one is later.
pub const NEITHER: u64 = 3;

/// The answer to a call.
#[derive(Clone, Copy, Debug, PartialEq, Eq)]
pub enum Answer {
    Refused(u64),
    Fresh,
    Started {
        messages: u64,
    },
    Delivered {
        kind: u64,
        messages: u64,
        outcome: u64,
    },
    /// The length of the log frame that was written to the output.
    Shown {
        length: u64,
    },
    /// How many stored versions went.
    Cleared {
        gone: u64,
    },
    /// Who gave and who took, for the log.
    HandedOver {
        giver: u64,
        receiver: u64,
    },
    /// How the first view stands to the second.
    Compared {
        standing: u64,
    },
    /// The block is accepted.
    Checked,
}

impl Answer {
    /// The number that a call returns: a refusal alone, or 0 in the lowest byte and what follows it
    /// above.
    pub fn number(self) -> u64 {
        match self {
            Answer::Refused(refusal) => refusal,
            Answer::Fresh | Answer::HandedOver { .. } | Answer::Checked => 0,
            Answer::Started { messages } => messages << 8,
            Answer::Delivered { kind, messages, outcome } => {
                kind << 8 | messages << 16 | outcome << 32
            }
            Answer::Shown { length } => length << 8,
            Answer::Cleared { gone } => gone << 8,
            Answer::Compared { standing } => standing << 8,
        }
    }

    /// The answer that a number is, if such a call can give it.
    pub fn of(call: &Call, number: u64) -> Option<Answer> {
        let answer = match call {
            _ if number & 0xff != 0 => Answer::Refused(number & 0xff),
            Call::Fresh { .. } => Answer::Fresh,
            Call::Read { .. } | Call::FastRead { .. } | Call::Write { .. } | Call::Mixed { .. } => {
                Answer::Started { messages: number >> 8 & 0xffff }
            }
            Call::Deliver { .. } => Answer::Delivered {
                kind: number >> 8 & 0xff,
                messages: number >> 16 & 0xffff,
                outcome: number >> 32 & 0xff,
            },
            Call::Show { .. } => Answer::Shown { length: number >> 8 & 0xffff },
            Call::Clear => Answer::Cleared { gone: number >> 8 & 0xffff },
            Call::HandOver { giver, receiver } => {
                Answer::HandedOver { giver: *giver, receiver: *receiver }
            }
            Call::Compare { .. } => Answer::Compared { standing: number >> 8 & 0xff },
            Call::Check => Answer::Checked,
        };
        let is_given = match (call, answer.refusal()) {
            (Call::Clear, refusal) => refusal <= 1,
            (Call::HandOver { .. }, refusal) => [0, 1, 3, 4, 18].contains(&refusal),
            (Call::Compare { .. }, 0) => number >> 8 <= NEITHER,
            (Call::Compare { .. }, refusal) => [1, 3].contains(&refusal),
            (Call::Check, refusal) => [0, 1, 19].contains(&refusal),
            (call, 17) => matches!(call, Call::Write { .. } | Call::Mixed { .. }),
            (_, refusal) => refusal <= 14,
        };
        (answer.number() == number && is_given).then_some(answer)
    }

    /// The bytes that a driver prints, of a call with this output.
    pub fn bytes(self, output: &[u8]) -> Vec<u8> {
        let two_bytes = |number: u64| [(number >> 8) as u8, number as u8];
        match self {
            Answer::Refused(refusal) => vec![refusal as u8],
            Answer::Fresh | Answer::Checked => vec![0],
            Answer::Started { messages } => [&[0], &two_bytes(messages)[..]].concat(),
            Answer::Delivered { kind, messages, outcome } => {
                [&[0, kind as u8], &two_bytes(messages)[..], &[outcome as u8]].concat()
            }
            Answer::Shown { length } => [&[0], &output[..length as usize]].concat(),
            Answer::Cleared { gone } => [&[0], &two_bytes(gone)[..]].concat(),
            Answer::HandedOver { giver, receiver } => {
                let frame = LogFrame::of_hand_over(giver as u8, receiver as u8);
                [&[0], &frame.bytes()[..]].concat()
            }
            Answer::Compared { standing } => vec![0, standing as u8],
        }
    }

    /// The refusal, or 0.
    pub fn refusal(self) -> u64 {
        match self {
            Answer::Refused(refusal) => refusal,
            _ => 0,
        }
    }
}
