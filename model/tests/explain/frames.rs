//! Store frames and answers beyond those of the session.

use crate::session::said;

#[test]
fn sets_are_said_item_by_item_and_rows_by_their_ends() {
    let reads = [
        ("0000000000000000", "no item"),
        ("0000000000000001", "item 0"),
        ("8000000000000000", "item 63"),
        ("0000000000000003", "items 0 and 1"),
        ("0000000000000007", "items 0 to 2"),
        ("000000000000002d", "items 0, 2, 3 and 5"),
        ("00000000000000f5", "items 0, 2 and 4 to 7"),
        ("ffffffffffffffff", "items 0 to 63"),
    ];
    for (set, items) in reads {
        let expected = format!("client 3 starts to read {items}: accepted, 1 message in flight");
        assert_eq!(said(&format!("0203{set}"), "000001"), expected);
    }
}

#[test]
fn a_write_whose_values_are_not_as_many_as_its_items_says_how_many_there_are() {
    let six = "refused by 6: not as many values as items";
    assert_eq!(
        said("03010000000000000003", "06"),
        format!("client 1 starts to write items 0 and 1, with 0 values: {six}")
    );
    assert_eq!(
        said("0301000000000000000300000007", "06"),
        format!("client 1 starts to write items 0 and 1, with 1 value: {six}")
    );
}

#[test]
fn a_shown_write_is_said() {
    assert_eq!(
        said("0501", "0020010000000000000003000000020000000700000008"),
        "client 1 is asked what it ended last: write number 2 of client 1: item 0, value 7; item 1, value 8"
    );
}

#[test]
fn a_fresh_start_of_one_each_is_said_in_the_singular() {
    assert_eq!(said("01010101", "00"), "fresh start with 1 client, 1 partition, 1 item: accepted");
}

#[test]
fn every_refusal_is_said() {
    let refusals = [
        (
            "01",
            "refused by 1: the block is too short or damaged, or no fresh start was accepted yet",
        ),
        ("02", "refused by 2: sizes outside 1 to 8 clients, 1 to 8 partitions and 1 to 64 items"),
        ("03", "refused by 3: no such client"),
        ("04", "refused by 4: the client, or of a hand-over either, isn't idle"),
        ("05", "refused by 5: the set is empty or holds an item that doesn't exist"),
        ("06", "refused by 6: not as many values as items"),
        (
            "07",
            "refused by 7: the client's count or a number in its view is the greatest, 4,294,967,295",
        ),
        ("08", "refused by 8: the load would be over 128"),
        (
            "09",
            "refused by 9: stored versions and prepares in flight would be over 512; a clearing \
             may free places",
        ),
        ("0a", "refused by 10: no message lies at that place"),
        ("0b", "refused by 11: the version is already stored, or the reply isn't awaited"),
        ("0c", "refused by 12: the version asked for isn't stored"),
        ("0d", "refused by 13: no transaction of the client has ended"),
        ("0e", "refused by 14: the output is shorter than the frame"),
        ("0f", "refused by 15: malformed"),
        ("10", "refused by 16: over 32,768 bytes or over 256 line ends"),
        ("11", "refused by 17: a write of more than 12 items"),
        ("12", "refused by 18: a hand-over of a client to itself"),
        ("13", "refused by 19: the block is in range, but not one that the calls make"),
    ];
    for (answer, sentence) in refusals {
        let expected = format!("the message at place 2 is delivered: {sentence}");
        assert_eq!(said("040002", answer), expected);
    }
}

#[test]
fn bytes_that_answer_no_such_frame_are_told() {
    let others = [
        ("01020202", "000002"),
        ("02020000000000000003", "00"),
        ("040000", "000002"),
        ("040000", "0000000200"),
        ("040000", "0008000200"),
        ("040000", "0001000203"),
        ("0502", "00"),
        ("0502", "002102"),
        ("0502", "14"),
        ("0502", "00220201"),
        ("06", "00"),
        ("06020000000000000003", "00"),
        ("06020000000000000003", "0006000200"),
        ("07", "00"),
        ("07010000000000000001000000000000000100000007", "00"),
        ("07010000000000000001000000000000000100000007", "0006000200"),
        ("40", "00"),
        ("40", "00000000"),
        ("410102", "00"),
        ("410102", "002201"),
        ("410102", "00220201"),
        ("410102", "0021020000000000000001000000000000000000"),
        ("420102", "00"),
        ("420102", "0004"),
        ("420102", "000000"),
        ("43", "0000"),
        ("43", "000000"),
        ("44", "00"),
    ];
    for (frame, answer) in others {
        let said = said(frame, answer);
        assert!(said.ends_with(": this is no answer to such a frame"), "{said}");
    }
}

#[test]
fn a_clearing_is_said_with_how_many_went() {
    let asked = "old versions are cleared away";
    assert_eq!(said("40", "000000"), format!("{asked}: 0 versions went"));
    assert_eq!(said("40", "000001"), format!("{asked}: 1 version went"));
    assert_eq!(said("40", "0001fe"), format!("{asked}: 510 versions went"));
    let refused =
        "refused by 1: the block is too short or damaged, or no fresh start was accepted yet";
    assert_eq!(said("40", "01"), format!("{asked}: {refused}"));
}

#[test]
fn a_hand_over_is_said_with_who_takes_over() {
    let asked = "client 1 is to hand over to client 2";
    assert_eq!(said("410102", "00220102"), format!("{asked}: client 1 hands over to client 2"));
    assert_eq!(
        said("410102", "04"),
        format!("{asked}: refused by 4: the client, or of a hand-over either, isn't idle")
    );
}

#[test]
fn a_comparison_is_said_with_how_the_first_stands_to_the_second() {
    let asked = "client 1's view is compared with client 8's";
    let standings = [
        ("0000", "they are the same"),
        ("0001", "client 1 is behind client 8"),
        ("0002", "client 1 is ahead of client 8"),
        ("0003", "each has an entry later than the other's"),
        ("03", "refused by 3: no such client"),
    ];
    for (answer, sentence) in standings {
        assert_eq!(said("420108", answer), format!("{asked}: {sentence}"));
    }
}

#[test]
fn a_check_is_said_with_its_answer() {
    let asked = "the block is checked";
    assert_eq!(said("43", "00"), format!("{asked}: accepted"));
    let refused = "refused by 19: the block is in range, but not one that the calls make";
    assert_eq!(said("43", "13"), format!("{asked}: {refused}"));
}

#[test]
fn a_fast_read_is_said_from_its_start_to_its_showing() {
    assert_eq!(
        said("06020000000000000003", "000002"),
        "client 2 starts a fast read of items 0 and 1: accepted, 2 messages in flight"
    );
    let delivered = "the message at place 0 is delivered";
    assert_eq!(
        said("040000", "0006000200"),
        format!("{delivered}: a first get, 2 messages in flight")
    );
    assert_eq!(
        said("040000", "0007000001"),
        format!("{delivered}: a first reply, 0 messages in flight; with it a read ends")
    );
    assert_eq!(
        said("0502", "0023020000000000000001000000010100000007"),
        "client 2 is asked what it ended last: client 2 shows by a fast read item 0 from write \
         number 1 of client 1, value 7"
    );
}

#[test]
fn a_mixed_transaction_is_said_from_its_start_to_its_showing() {
    assert_eq!(
        said("07020000000000000003000000000000000200000009", "000003"),
        "client 2 starts to read items 0 and 1 and to write item 1, value 9: accepted, 3 messages \
         in flight"
    );
    assert_eq!(
        said("070200000000000000030000000000000002", "06"),
        "client 2 starts to read items 0 and 1 and to write item 1, with 0 values: refused by 6: \
         not as many values as items"
    );
    let delivered = "the message at place 0 is delivered";
    assert_eq!(
        said("040000", "0005000102"),
        format!("{delivered}: a got reply, 1 message in flight; with it a mixed transaction ends")
    );
    assert_eq!(
        said("040000", "0002000102"),
        format!("{delivered}: a prepared reply, 1 message in flight; with it a write ends")
    );
    assert_eq!(
        said("0502", "0024020000000000000001000000000000000000000000000000000100000001000000a9"),
        "client 2 is asked what it ended last: client 2 shows by a mixed transaction item 0 \
         initial; write number 1 of client 2: item 0, value 169"
    );
}

#[test]
fn a_malformed_answer_is_told() {
    assert!(said("0502", "0F").ends_with(": malformed answer: uppercase digit F at column 2"));
}
