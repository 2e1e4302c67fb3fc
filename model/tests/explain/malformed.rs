//! What is wrong with a malformed line.

use koolvent_model::explain::{log, session};

/// What is wrong with a store frame, answered by 15.
fn frame(line: &[u8]) -> String {
    let said = session(line, b"0f\n");
    let (_, wrong) = said.split_once("malformed frame: ").expect("malformed");
    let wrong = wrong.strip_suffix(": refused by 15: malformed\n");
    wrong.expect("refused by 15").to_owned()
}

/// What is wrong with the last line of a log.
fn line(text: &[u8]) -> String {
    let said = log(text, None);
    let last = said.lines().rev().nth(1).expect("a line");
    let (_, wrong) = last.split_once(" is malformed: ").expect("malformed");
    wrong.to_owned()
}

#[test]
fn the_text_of_a_line() {
    let texts: [(&[u8], &str); 13] = [
        (b"01020202", "no 0a at its end"),
        (b"\n", "it is empty"),
        (b"0102020\n", "an odd number of digits, 7"),
        (b"0\n", "an odd number of digits, 1"),
        (b"0102020A\n", "uppercase digit A at column 8"),
        (b"F1020202\n", "uppercase digit F at column 1"),
        (b"01020202\r\n", "carriage return at column 9"),
        (b" 01020202\n", "space at column 1"),
        (b"0102020g\n", "no digit but g at column 8"),
        (b"0x020202\n", "no digit but x at column 2"),
        (b"0102\x00202\n", "no digit but byte 00 at column 5"),
        (b"\xff\n", "no digit but byte ff at column 1"),
        (b"0G0A\n", "no digit but G at column 2"),
    ];
    for (text, wrong) in texts {
        assert_eq!(frame(text), wrong);
        assert_eq!(line(text), wrong);
    }
}

#[test]
fn the_kind_and_length_of_a_store_frame() {
    let frames = [
        ("00", "unknown kind 00"),
        ("06", "wrong length: a fast read has 10 bytes, this 1"),
        ("060200000000000003", "wrong length: a fast read has 10 bytes, this 9"),
        (
            "07",
            "wrong length: a mixed transaction has 18 bytes and 4 for each of at most 64 values, \
             this 1",
        ),
        (
            "0701000000000000000100000000000000010000",
            "wrong length: a mixed transaction has 18 bytes and 4 for each of at most 64 values, \
             this 20",
        ),
        ("08", "unknown kind 08"),
        ("20", "unknown kind 20"),
        ("010202", "wrong length: a fresh start has 4 bytes, this 3"),
        ("0102020202", "wrong length: a fresh start has 4 bytes, this 5"),
        ("020200000000000003", "wrong length: a read has 10 bytes, this 9"),
        ("0400", "wrong length: a delivery has 3 bytes, this 2"),
        ("05", "wrong length: a showing has 2 bytes, this 1"),
        ("4000", "wrong length: a clearing has 1 byte, this 2"),
        ("41", "wrong length: a hand-over has 3 bytes, this 1"),
        ("41010203", "wrong length: a hand-over has 3 bytes, this 4"),
        ("4201", "wrong length: a comparison has 3 bytes, this 2"),
        ("4300", "wrong length: a check has 1 byte, this 2"),
        ("44", "unknown kind 44"),
        (
            "0301000000000000000100000007ff",
            "wrong length: a write has 10 bytes and 4 for each of at most 64 values, this 15",
        ),
        ("03", "wrong length: a write has 10 bytes and 4 for each of at most 64 values, this 1"),
    ];
    for (digits, wrong) in frames {
        assert_eq!(frame(format!("{digits}\n").as_bytes()), wrong);
    }
    let values = "00000007".repeat(65);
    assert_eq!(
        frame(format!("0301ffffffffffffffff{values}\n").as_bytes()),
        "wrong length: a write has 10 bytes and 4 for each of at most 64 values, this 270"
    );
}

#[test]
fn the_kind_and_length_of_a_log_line() {
    let lines = [
        ("2401", "wrong length: 2, too short for a client and a set"),
        ("24010000000000000001", "wrong length: 10, too short for what it reads and a write set"),
        (
            "240100000000000000010000000000000000000000000000000003",
            "wrong length: a mixed transaction that reads 1 and writes 2 has 39 bytes, this 27",
        ),
        ("25010000000000000001", "unknown kind 25"),
        ("23010000000000000001", "wrong length: a fast read of 1 item has 19 bytes, this 10"),
        ("2301", "wrong length: 2, too short for a client and a set"),
        ("22010000000000000001", "wrong length: a hand-over has 3 bytes, this 10"),
        ("2201", "wrong length: a hand-over has 3 bytes, this 2"),
        ("1f", "unknown kind 1f"),
        ("20", "wrong length: 1, too short for a client and a set"),
        ("210200000000000001", "wrong length: 9, too short for a client and a set"),
        ("20010000000000000003000000010000000", "an odd number of digits, 35"),
        (
            "2001000000000000000300000001000000a9",
            "wrong length: a write of 2 items has 22 bytes, this 18",
        ),
        ("20010000000000000001", "wrong length: a write of 1 item has 18 bytes, this 10"),
        (
            "21020000000000000003000000000000000000",
            "wrong length: a read of 2 items has 28 bytes, this 19",
        ),
    ];
    for (digits, wrong) in lines {
        assert_eq!(line(format!("{digits}\n").as_bytes()), wrong);
    }
}

#[test]
fn the_fields_of_a_log_line() {
    let write = "2001000000000000000100000002000000a9\n";
    let lines = [
        ("2000000000000000000100000001000000a9\n".to_owned(), "client 0, and clients are 1 to 8"),
        ("21090000000000000001000000000000000000\n".to_owned(), "client 9, and clients are 1 to 8"),
        ("220001\n".to_owned(), "client 0, and clients are 1 to 8"),
        ("220109\n".to_owned(), "receiver 9, and clients are 1 to 8"),
        ("220202\n".to_owned(), "client 2 hands over to itself"),
        ("2001000000000000000000000001\n".to_owned(), "its set is empty"),
        ("21010000000000000000\n".to_owned(), "its set is empty"),
        (
            "2001000000000000000100000000000000a9\n".to_owned(),
            "write number 0, and numbers begin with 1",
        ),
        (format!("{write}{write}"), "write number 2 of client 1 below its number 2, log line 1"),
        (
            format!("{write}bad\n2001000000000000000100000001000000a9\n"),
            "write number 1 of client 1 below its number 2, log line 1",
        ),
        (
            "21020000000000000003000000000000000000000000000100000000\n".to_owned(),
            "item 1 from write number 0 of client 1",
        ),
        (
            "21020000000000000001000000010000000000\n".to_owned(),
            "item 0 from write number 1 of client 0",
        ),
        (
            "21020000000000000001000000010900000000\n".to_owned(),
            "item 0 from write number 1 of client 9",
        ),
    ];
    for (text, wrong) in lines {
        assert_eq!(line(text.as_bytes()), wrong);
    }
}
