//! Logs to try judges on: random ones, spoiled ones and every small one.

mod frames;
mod shown;
mod small;

pub use small::{every_small_log, every_small_log_with_hand_overs, read_and_write};

use crate::frames::log::LogFrame;
use crate::random::Random;
use frames::{frames_of, random_frames};

/// A random log. Most are well formed, and among those each finding is frequent.
pub fn random_log(random: &mut Random) -> Vec<u8> {
    let mut log = log_of(&random_frames(random));
    if random.below(6) == 0 {
        spoil(&mut log, random);
    }
    log
}

/// A random log of about as many lines as a judge takes, in which few reads are at fault.
pub fn random_long_log(random: &mut Random) -> Vec<u8> {
    let lines = 245 + random.below(14);
    log_of(&frames_of(lines, lines / 3, random))
}

/// The frames' lines.
fn log_of(frames: &[LogFrame]) -> Vec<u8> {
    frames.iter().flat_map(|frame| frame.line().into_bytes()).collect()
}

/// The log with every line of one kind made one of another; a kind is two digits.
pub fn with_kinds(log: &[u8], from: &[u8], to: &[u8]) -> Vec<u8> {
    let lines = log.split_inclusive(|byte| *byte == b'\n');
    let made = lines.map(|line| match line.strip_prefix(from) {
        Some(rest) => [to, rest].concat(),
        None => line.to_vec(),
    });
    made.collect::<Vec<_>>().concat()
}

/// Replaces, inserts or takes out one byte, or cuts the log off.
pub fn spoil(log: &mut Vec<u8>, random: &mut Random) {
    let place = random.place(log.len() + 1);
    let byte = match random.below(3) {
        0 => random.pick(b"0123456789abcdef"),
        1 => random.pick(b"\n\r\0 ABF@G`g/:"),
        _ => random.below(256) as u8,
    };
    match random.below(4) {
        0 => log.insert(place, byte),
        1 => log.truncate(place),
        2 if place < log.len() => drop(log.remove(place)),
        _ if place < log.len() => log[place] = byte,
        _ => log.push(byte),
    }
}
