//! Lines of every length: truncated frames, lines about the longest frame's, lines of a megabyte,
//! last lines without 0a.

use crate::program::{agreed, printed};

/// A frame of each kind, the shortest and the longest write and mixed transaction among them.
fn frames() -> Vec<String> {
    let write = |values: usize| format!("0301000000000000000f{}", "0000002a".repeat(values));
    let starts = ["01020204", "0201000000000000000f", "0601000000000000000f"];
    let others = ["040000", "0501", "40", "410102", "420201", "43"];
    let writes = [0, 1, 4, 64].map(write);
    let mixed = |values: usize| {
        format!("07010000000000000003000000000000000f{}", "0000002a".repeat(values))
    };
    let mixed = [0, 1, 4, 64].map(mixed);
    starts.into_iter().chain(others).map(str::to_owned).chain(writes).chain(mixed).collect()
}

const FRESH: &str = "01020204\n";

/// The line between a fresh start and a read that is accepted.
fn amid(line: &[u8]) -> Vec<u8> {
    let before = FRESH.as_bytes();
    [before, line, b"\n0202000000000000000f\n040000\n"].concat()
}

#[test]
fn every_truncation_of_a_frame() {
    let mut input = Vec::new();
    for frame in frames() {
        for length in 0..=frame.len() {
            input.extend(amid(&frame.as_bytes()[..length]));
        }
    }
    agreed(&input, 4_096);
}

/// As many values as items, from 0 to 64 of each and one more; of over 12 items a write is refused,
/// and its frame is still one.
#[test]
fn writes_of_every_width() {
    let mut input = b"01080840\n".to_vec();
    for items in 0..=65 {
        let set = u64::MAX.checked_shr(64 - items.min(64)).unwrap_or(0);
        let values = "0000002a".repeat(items as usize);
        input.extend(format!("0301{set:016x}{values}\n0201{set:016x}\n01080840\n").bytes());
        let mixed = format!("0701{set:016x}{set:016x}{values}\n070100000000000000ff{set:016x}");
        input.extend(format!("{mixed}{values}\n01080840\n").bytes());
    }
    agreed(&input, 1_000);
}

/// 256 versions and more go.
#[test]
fn how_many_went_are_two_bytes() {
    let write = format!("03010000000000000fff{}\n", "00000009".repeat(12));
    let writes = format!("{write}{}", "040000\n".repeat(25)).repeat(42);
    let answers = printed(format!("0101010c\n{writes}{write}40\n{write}").as_bytes(), 4_096);
    assert!(answers.ends_with("\n0003000000\n09\n0001ec\n00000c\n"), "{answers}");
}

#[test]
fn every_byte_in_place_of_a_digit() {
    let mut input = Vec::new();
    for frame in frames() {
        for place in 0..frame.len().min(30) {
            for byte in (0..=255).filter(|byte| *byte != b'\n') {
                let mut line = frame.clone().into_bytes();
                line[place] = byte;
                input.extend(amid(&line));
            }
        }
    }
    agreed(&input, 50_000);
}

#[test]
fn a_last_line_without_its_end() {
    for frame in frames() {
        let ends = (0..=frame.len()).filter(|end| *end < 30 || *end + 3 > frame.len());
        for length in ends {
            let last = &frame[..length];
            agreed(format!("{FRESH}{last}").as_bytes(), 5);
            agreed(last.as_bytes(), 4_096);
        }
    }
    agreed(&[FRESH.as_bytes(), &[b'0'; 1 << 20]].concat(), 30_000);
}

#[test]
fn no_bytes_no_answer() {
    assert_eq!(printed(b"", 1), "");
    assert_eq!(printed(b"\n", 1), "0f\n");
}

#[test]
fn lines_about_the_length_of_the_longest_frame_and_of_buffers() {
    let around = |length: usize| length - 6..length + 7;
    let lengths = [532, 548, 1_024, 4_096, 8_192, 65_536].into_iter().flat_map(around);
    let mut input = Vec::new();
    for length in lengths {
        for beginning in ["", "01020204", "0301000000000000000f", "0701000000000000000f"] {
            let mut line = beginning.as_bytes().to_vec();
            line.resize(length, b'0');
            input.extend(amid(&line));
        }
    }
    agreed(&input, 1 << 20);
    agreed(&input, 4_095);
}

#[test]
fn lines_of_a_megabyte() {
    for byte in [b'0', b'f', b'A', b'\r', 0, 255] {
        let line = vec![byte; 1 << 20];
        let input = [amid(&line), amid(&[b"01020204", &line[..]].concat())].concat();
        agreed(&input, 100_000);
    }
}

#[test]
fn a_million_empty_lines() {
    assert_eq!(printed(&vec![b'\n'; 1_000_000], 60_000), "0f\n".repeat(1_000_000));
}
