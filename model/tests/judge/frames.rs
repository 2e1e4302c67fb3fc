//! Hexadecimal lines and log frames, byte for byte.

use koolvent_model::frames::hex::{from_line, to_hex};
use koolvent_model::frames::log::{LogFrame, Shown};
use koolvent_model::random::Random;

const WRITE: &[u8] = &[
    0x20, 0x03, 0x80, 0, 0, 0, 0, 0, 0, 0x02, 0, 0x01, 0x02, 0x03, 0, 0, 0, 0x07, 0xff, 0xfe, 0xfd,
    0xfc,
];
const READ: &[u8] = &[
    0x21, 0x08, 0, 0, 0, 0, 0, 0, 0, 0x05, 0, 0, 0, 0, 0, 0, 0, 0, 0, 0x0a, 0x0b, 0x0c, 0x0d, 0x02,
    0x01, 0x02, 0x03, 0x04,
];

const FAST_READ: &[u8] =
    &[0x23, 0x02, 0, 0, 0, 0, 0, 0, 0, 0x10, 0, 0, 0, 0x09, 0x03, 0, 0, 0, 0x04];
const HAND_OVER: &[u8] = &[0x22, 0x08, 0x03];
const MIXED: &[u8] = &[
    0x24, 0x04, 0, 0, 0, 0, 0, 0, 0, 0x02, 0, 0, 0, 0x09, 0x03, 0, 0, 0, 0x04, 0, 0, 0, 0, 0, 0, 0,
    0x81, 0, 0, 0, 0x0a, 0, 0, 0, 0x05, 0, 0, 0, 0x06,
];
const FRAMES: [&[u8]; 5] = [WRITE, READ, FAST_READ, HAND_OVER, MIXED];

fn mixed() -> LogFrame {
    let shown = Shown { number: 9, client: 3, value: 4 };
    LogFrame::of_mixed(4, (0b10, vec![shown]), (0b1000_0001, 10, vec![5, 6]))
}

fn write() -> LogFrame {
    LogFrame::of_write(3, 1 << 63 | 1 << 1, 66_051, vec![7, 4_294_901_244])
}

fn read() -> LogFrame {
    let written = Shown { number: 0x0a0b_0c0d, client: 2, value: 0x0102_0304 };
    LogFrame::of_read(8, 0b101, vec![Shown::INITIAL, written])
}

/// The bytes of a line without its 0a.
fn from_hex(digits: &[u8]) -> Option<Vec<u8>> {
    from_line(&[digits, b"\n"].concat()).ok()
}

#[test]
fn hex_of_a_byte_is_two_lowercase_digits() {
    assert_eq!(to_hex(&[]), "");
    assert_eq!(to_hex(&[0x00, 0x0f, 0xa5, 0xff]), "000fa5ff");
    for byte in 0..=255 {
        let digits = format!("{byte:02x}");
        assert_eq!(to_hex(&[byte]), digits);
        assert_eq!(from_hex(digits.as_bytes()), Some(vec![byte]));
    }
}

#[test]
fn hex_takes_lowercase_digits_alone_and_an_even_number() {
    assert_eq!(from_hex(b""), None);
    assert!(from_line(b"00").is_err(), "no line end");
    assert_eq!(from_hex(b"0"), None);
    assert_eq!(from_hex(b"000"), None);
    assert_eq!(from_hex(b"12ef"), Some(vec![0x12, 0xef]));
    for character in 0..=255 {
        let is_digit = b"0123456789abcdef".contains(&character);
        assert_eq!(from_hex(&[character, b'7']).is_some(), is_digit);
        assert_eq!(from_hex(&[b'7', character]).is_some(), is_digit);
    }
}

#[test]
fn frames_have_the_bytes_of_the_paper() {
    assert_eq!(write().bytes(), WRITE);
    assert_eq!(read().bytes(), READ);
    assert_eq!(write().line(), "200380000000000000020001020300000007fffefdfc\n");
    assert_eq!(LogFrame::parse(WRITE), Ok(write()));
    assert_eq!(LogFrame::parse(READ), Ok(read()));
    let fast = LogFrame::of_fast_read(2, 0x10, vec![Shown { number: 9, client: 3, value: 4 }]);
    assert_eq!(fast.bytes(), FAST_READ);
    assert_eq!(LogFrame::parse(FAST_READ), Ok(fast));
    let hand_over = LogFrame::of_hand_over(8, 3);
    assert_eq!((hand_over.bytes(), hand_over.line()), (HAND_OVER.to_vec(), "220803\n".to_owned()));
    assert_eq!(LogFrame::parse(HAND_OVER), Ok(hand_over));
    assert_eq!((mixed().bytes(), LogFrame::parse(MIXED)), (MIXED.to_vec(), Ok(mixed())));
}

#[test]
fn a_mixed_transaction_shows_and_writes_what_its_parts_would_alone() {
    let read = LogFrame::of_read(4, 0b10, vec![Shown { number: 9, client: 3, value: 4 }]);
    let write = LogFrame::of_write(4, 0b1000_0001, 10, vec![5, 6]);
    assert_eq!((mixed().shown(), mixed().written()), (read.shown(), write.written()));
    let parts = [&read.bytes()[..], &write.bytes()[2..]].concat();
    assert_eq!(MIXED[1..], parts[1..]);
}

#[test]
fn a_fast_read_is_laid_out_as_a_read_and_is_another_frame() {
    let as_read = [&[0x21], &FAST_READ[1..]].concat();
    let [fast, read] = [FAST_READ, &as_read].map(|bytes| LogFrame::parse(bytes).expect("a frame"));
    assert_eq!((fast.shown(), fast.written()), (read.shown(), Vec::new()));
    assert_ne!(fast, read);
}

#[test]
fn a_hand_over_shows_and_writes_nothing() {
    let hand_over = LogFrame::of_hand_over(8, 3);
    assert_eq!((hand_over.shown(), hand_over.written()), (Vec::new(), Vec::new()));
}

#[test]
fn every_truncation_and_extension_of_a_frame_is_refused() {
    for frame in FRAMES {
        for length in 0..frame.len() {
            assert!(LogFrame::parse(&frame[..length]).is_err());
        }
        for more in 1..=64 {
            assert!(LogFrame::parse(&[frame, &vec![0; more]].concat()).is_err());
        }
    }
}

#[test]
fn other_kinds_are_refused() {
    for kind in (0..0x20).chain(0x25..=0xff) {
        for frame in FRAMES {
            assert!(LogFrame::parse(&[&[kind], &frame[1..]].concat()).is_err());
        }
    }
}

#[test]
fn parsing_leaves_clients_sets_and_numbers_to_the_judge() {
    let frames = [
        LogFrame::of_write(0, 0, 0, vec![]),
        LogFrame::of_write(255, u64::MAX, u32::MAX, vec![u32::MAX; 64]),
        LogFrame::of_read(9, 0, vec![]),
        LogFrame::of_fast_read(9, 0, vec![]),
        LogFrame::of_hand_over(0, 9),
        LogFrame::of_hand_over(255, 255),
        LogFrame::of_mixed(0, (0, vec![]), (0, 0, vec![])),
        LogFrame::of_mixed(
            255,
            (u64::MAX, vec![Shown::INITIAL; 64]),
            (u64::MAX, u32::MAX, vec![u32::MAX; 64]),
        ),
    ];
    let lengths = [14, 270, 10, 10, 3, 3, 22, 854];
    for (frame, length) in frames.into_iter().zip(lengths) {
        assert_eq!(frame.bytes().len(), length);
        assert_eq!(LogFrame::parse(&frame.bytes()), Ok(frame));
    }
}

#[test]
fn random_bytes_are_no_frame_or_the_bytes_of_their_frame() {
    let mut random = Random::new(1);
    let mut below = |bound| random.below(bound);
    let mut parsed = 0;
    for _ in 0..20_000 {
        let mut bytes = vec![0x20 + below(5) as u8, below(256) as u8];
        let set = below(4) << (below(3) * 31);
        bytes.extend(set.to_be_bytes());
        bytes.extend((0..below(30)).map(|_| below(256) as u8));
        if let Ok(frame) = LogFrame::parse(&bytes) {
            assert_eq!(frame.bytes(), bytes);
            parsed += 1;
        }
        let noise: Vec<u8> = (0..below(40)).map(|_| below(256) as u8).collect();
        if let Some(decoded) = from_hex(&noise) {
            assert_eq!(to_hex(&decoded).as_bytes(), noise);
        }
    }
    assert!(parsed > 300, "{parsed} of 20,000 had the length of a frame");
}
