//! Random log frames: a few clients write a few items, and read them.

use super::shown;
use crate::frames::log::{LogFrame, ReadPart, Shown, WritePart};
use crate::random::Random;

/// The frames of a log. Most are as the judge wants them; now and then one field is not.
pub fn random_frames(random: &mut Random) -> Vec<LogFrame> {
    let lines = match random.below(50) {
        0 => random.below(60),
        _ => random.below(11),
    };
    frames_of(lines, 1, random)
}

/// So many frames. One read in `doubtful` shows anything; the others are without fault.
pub(super) fn frames_of(lines: u64, doubtful: u64, random: &mut Random) -> Vec<LogFrame> {
    let mut frames = writes_and_empty_reads(lines, random);
    for place in 0..frames.len() {
        let doubtful = random.once_in(doubtful);
        let Some(ReadPart { manner, set, .. }) = frames[place].read else {
            continue;
        };
        let shown = match doubtful {
            true => shown::random_entries(&frames, place, set, random),
            false => shown::faultless_entries(&frames, place, manner, set, random),
        };
        frames[place].read = Some(ReadPart { manner, set, shown });
    }
    if random.once_in(6) {
        spoil_field(&mut frames, random);
    }
    frames
}

/// Writes with numbers that rise for each client, hand-overs, and reads that don't show anything
/// yet, alone or beside a write. Whoever took over last goes on more often than others.
fn writes_and_empty_reads(lines: u64, random: &mut Random) -> Vec<LogFrame> {
    let clients = random.pick(&[2, 2, 3, 8]);
    let items = match random.below(50) {
        0 => u64::MAX,
        _ => random.pick(&[0b1, 0b11, 0b11, 0b111, 0b1101, 1 << 63 | 1]),
    };
    let first_number = random.pick(&[1, 1, 1, 1_000, u32::MAX - 3 * lines as u32]);
    let mut next_number = [first_number; 9];
    let hand_overs = random.pick(&[0, 15, 40]);
    let mixed = random.pick(&[0, 20, 60]);
    let mut took_over = None;
    (0..lines)
        .map(|_| {
            let any = 1 + random.place(clients);
            let client = took_over.filter(|_| random.once_in(2)).unwrap_or(any);
            if random.percent(hand_overs) {
                let receiver = 1 + (client + random.place(clients - 1)) % clients;
                took_over = Some(receiver);
                return LogFrame::of_hand_over(client as u8, receiver as u8);
            }
            let set = subset(items, random);
            let is_mixed = random.percent(mixed);
            if !is_mixed && random.once_in(2) {
                let of = match random.once_in(4) {
                    true => LogFrame::of_fast_read,
                    false => LogFrame::of_read,
                };
                return of(client as u8, set, Vec::new());
            }
            let number = next_number[client] + random.pick(&[0, 0, 0, 1, 2]);
            next_number[client] = number + 1;
            let values = (0..set.count_ones()).map(|_| value(random)).collect();
            let client = client as u8;
            match is_mixed {
                true => {
                    let read = (subset(items, random), Vec::new());
                    LogFrame::of_mixed(client, read, (set, number, values))
                }
                false => LogFrame::of_write(client, set, number, values),
            }
        })
        .collect()
}

/// A nonempty part of a nonempty set.
fn subset(set: u64, random: &mut Random) -> u64 {
    let part = (0..64).filter(|_| random.once_in(2)).fold(0, |part, item| part | 1 << item);
    if set & part == 0 {
        set
    } else {
        set & part
    }
}

/// A value: few are in use, so that a wrong one may also be met where it is right.
fn value(random: &mut Random) -> u32 {
    match random.below(8) {
        0 => random.below(1 << 32) as u32,
        _ => random.below(3) as u32,
    }
}

/// Gives one frame a field that the judge refuses, or may.
fn spoil_field(frames: &mut [LogFrame], random: &mut Random) {
    if frames.is_empty() {
        return;
    }
    let place = random.place(frames.len());
    let bad_client = random.pick(&[0, 9, 255]);
    let LogFrame { client, read, write, receiver } = &mut frames[place];
    if let Some(WritePart { set, number, values }) = write {
        match random.below(6) {
            0 => *client = bad_client,
            1 => *client = 1 + random.below(8) as u8,
            2 => *number = random.pick(&[0, 1, 2, number.saturating_sub(1)]),
            3 => values.push(0),
            4 => drop(values.pop()),
            _ => (*set, *values) = (0, Vec::new()),
        }
    }
    if let Some(ReadPart { set, shown, .. }) = read {
        match random.below(6) {
            0 => *client = bad_client,
            1 => shown.push(shown[0]),
            2 => drop(shown.pop()),
            3 => *set ^= 1 << random.below(64),
            4 => (*set, *shown) = (0, Vec::new()),
            _ => spoil_stamp(shown, random),
        }
    }
    if let Some(receiver) = receiver {
        match random.below(3) {
            0 => *client = bad_client,
            1 => *receiver = bad_client,
            _ => *receiver = *client,
        }
    }
}

/// Gives one entry a number of 0 or a client that is none.
fn spoil_stamp(shown: &mut [Shown], random: &mut Random) {
    let place = random.place(shown.len());
    let entry = &mut shown[place];
    (entry.number, entry.client) = random.pick(&[(0, 1), (0, 9), (1, 0), (1, 9), (1, 255)]);
}
