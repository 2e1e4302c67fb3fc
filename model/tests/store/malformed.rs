//! Parsers answer for any bytes.

use koolvent_model::call::Call;
use koolvent_model::frames::store::{parse, run};
use koolvent_model::random::Random;

const GOOD: [&str; 14] = [
    "01020202",
    "02020000000000000003",
    "030100000000000000030000000700000008",
    "03010000000000000000",
    "040001",
    "0502",
    "02ffffffffffffffffff",
    "06020000000000000003",
    "0702000000000000000300000000000000010000000700000008",
    "070200000000000000030000000000000001",
    "40",
    "410102",
    "42ff00",
    "43",
];

/// The call of a line without its 0a.
fn parsed(line: &[u8]) -> Option<Call> {
    parse(&[line, b"\n"].concat()).ok()
}

/// The lengths in bytes that a frame of this first byte may have.
fn has_a_length_of_its_kind(bytes: &[u8]) -> bool {
    let length = bytes.len();
    match bytes.first() {
        Some(1) => length == 4,
        Some(2 | 6) => length == 10,
        Some(3) => (10..=266).contains(&length) && length % 4 == 2,
        Some(4) => length == 3,
        Some(5) => length == 2,
        Some(7) => (18..=274).contains(&length) && length % 4 == 2,
        Some(0x40 | 0x43) => length == 1,
        Some(0x41 | 0x42) => length == 3,
        _ => false,
    }
}

#[test]
fn every_good_frame_is_parsed() {
    for frame in GOOD {
        assert!(parsed(frame.as_bytes()).is_some(), "{frame}");
    }
    let set = 3;
    let values = vec![0, 0, 0, 7, 0, 0, 0, 8];
    assert_eq!(parsed(GOOD[2].as_bytes()), Some(Call::Write { client: 1, set, values }));
    assert_eq!(parsed(b"06020000000000000003"), Some(Call::FastRead { client: 2, set }));
    let values = vec![0, 0, 0, 7, 0, 0, 0, 8];
    let mixed = Call::Mixed { client: 2, read: 3, write: 1, values };
    assert_eq!(parsed(GOOD[8].as_bytes()), Some(mixed));
    assert_eq!(parsed(b"410102"), Some(Call::HandOver { giver: 1, receiver: 2 }));
    assert_eq!(parsed(b"42ff00"), Some(Call::Compare { first: 255, second: 0 }));
    assert_eq!(parsed(b"43"), Some(Call::Check));
}

#[test]
fn every_truncation_of_a_good_frame_is_malformed_unless_shorter_by_whole_values() {
    for frame in GOOD {
        for length in 0..frame.len() {
            let shorter = &frame.as_bytes()[..length];
            let least = if frame.starts_with("03") { 20 } else { 36 };
            let has_values = frame.starts_with("03") || frame.starts_with("07");
            let whole_values = has_values && length >= least && length % 8 == 4;
            assert_eq!(parsed(shorter).is_some(), whole_values, "{length} of {frame}");
        }
    }
}

#[test]
fn every_frame_with_a_digit_more_is_malformed() {
    for frame in GOOD {
        for digit in ["0", "00", "000000", "g", "\r"] {
            let longer = format!("{frame}{digit}");
            assert_eq!(parsed(longer.as_bytes()), None, "{longer}");
        }
    }
}

#[test]
fn random_bytes_are_parsed_exactly_when_they_have_a_length_of_their_kind() {
    let mut random = Random::new(15);
    let mut frames = 0;
    for _ in 0..200_000 {
        let length = random.below(32) as usize;
        let mut bytes = random.bytes(length);
        if let Some(first) = bytes.first_mut() {
            *first = random.pick(&[0, 1, 2, 3, 4, 5, 6, 7, 8, 0x40, 0x41, 0x42, 0x43, 0x44]);
        }
        let line: String = bytes.iter().map(|byte| format!("{byte:02x}")).collect();
        let frame = parsed(line.as_bytes());
        assert_eq!(frame.is_some(), has_a_length_of_its_kind(&bytes), "{line}");
        frames += usize::from(frame.is_some());
    }
    assert!(frames > 1_000, "only {frames} were well formed");
}

#[test]
fn a_byte_that_is_no_lowercase_digit_makes_a_frame_malformed() {
    for frame in GOOD {
        for place in 0..frame.len() {
            for byte in (0..=255).filter(|byte| !b"0123456789abcdef".contains(byte)) {
                let mut line = frame.as_bytes().to_vec();
                line[place] = byte;
                assert_eq!(parsed(&line), None, "{byte} at {place} of {frame}");
            }
        }
    }
}

#[test]
fn random_text_never_stops_the_driver_and_has_an_answer_a_line() {
    let mut random = Random::new(16);
    for _ in 0..20_000 {
        let length = random.below(60) as usize;
        let alphabet = b"0123456789abcdef\n\n\r\0Ag";
        let mut text = random.bytes(length);
        if random.percent(70) {
            text.fill_with(|| random.pick(alphabet));
        }
        let ends = text.iter().filter(|byte| **byte == b'\n').count();
        let tail = usize::from(text.last().is_some_and(|last| *last != b'\n'));
        assert_eq!(run(&text).lines().count(), ends + tail, "{text:?}");
    }
}
