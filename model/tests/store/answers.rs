//! Answers as bytes and as numbers.

use koolvent_model::answer::{Answer, BEHIND, NEITHER, READ_ENDED, WRITE_ENDED};
use koolvent_model::call::Call;

#[test]
fn a_refusal_is_its_number_alone() {
    assert_eq!(Answer::Refused(14).bytes(&[]), [14]);
    assert_eq!(Answer::Refused(14).number(), 14);
}

#[test]
fn a_fresh_is_0() {
    assert_eq!(Answer::Fresh.bytes(&[]), [0]);
    assert_eq!(Answer::Fresh.number(), 0);
}

#[test]
fn a_start_gives_the_message_list_length() {
    let answer = Answer::Started { messages: 128 };
    assert_eq!(answer.bytes(&[]), [0, 0, 128]);
    assert_eq!(answer.number(), 0x8000);
}

#[test]
fn a_delivery_gives_kind_length_and_outcome() {
    let answer = Answer::Delivered { kind: 5, messages: 0x0102, outcome: READ_ENDED };
    assert_eq!(answer.bytes(&[]), [0, 5, 1, 2, 1]);
    assert_eq!(answer.number(), 0x01_0102_0500);
    let answer = Answer::Delivered { kind: 2, messages: 1, outcome: WRITE_ENDED };
    assert_eq!(answer.bytes(&[]), [0, 2, 0, 1, 2]);
    assert_eq!(answer.number(), 0x02_0001_0200);
}

#[test]
fn a_showing_gives_the_frame_and_its_length() {
    let answer = Answer::Shown { length: 586 };
    let bytes = answer.bytes(&[0x21; 600]);
    assert_eq!((bytes.len(), bytes[0], bytes[586]), (587, 0, 0x21));
    assert_eq!(answer.number(), 586 * 256);
}

#[test]
fn a_clearing_gives_how_many_went() {
    let answer = Answer::Cleared { gone: 0x01fe };
    assert_eq!(answer.bytes(&[]), [0, 1, 0xfe]);
    assert_eq!(answer.number(), 0x01_fe00);
    assert_eq!(Answer::of(&Call::Clear, 0x01_fe00), Some(answer));
    assert_eq!(Answer::of(&Call::Clear, 0), Some(Answer::Cleared { gone: 0 }));
    assert_eq!(Answer::of(&Call::Clear, 1), Some(Answer::Refused(1)));
    for number in [2, 4, 9, 12, 1 << 24] {
        assert_eq!(Answer::of(&Call::Clear, number), None);
    }
}

#[test]
fn a_hand_over_gives_its_log_frame_and_the_number_0() {
    let answer = Answer::HandedOver { giver: 8, receiver: 1 };
    assert_eq!(answer.bytes(&[]), [0, 0x22, 8, 1]);
    assert_eq!(answer.number(), 0);
    let call = Call::HandOver { giver: 8, receiver: 1 };
    assert_eq!(Answer::of(&call, 0), Some(answer));
    for refusal in [1, 3, 4, 18] {
        assert_eq!(Answer::of(&call, refusal), Some(Answer::Refused(refusal)));
    }
    for number in [2, 5, 9, 13, 17, 1 << 8] {
        assert_eq!(Answer::of(&call, number), None);
    }
}

#[test]
fn a_comparison_gives_how_the_first_stands_to_the_second() {
    let answer = Answer::Compared { standing: NEITHER };
    assert_eq!((answer.bytes(&[]), answer.number()), (vec![0, 3], 0x0300));
    let call = Call::Compare { first: 2, second: 2 };
    assert_eq!(Answer::of(&call, 0x0100), Some(Answer::Compared { standing: BEHIND }));
    for refusal in [1, 3] {
        assert_eq!(Answer::of(&call, refusal), Some(Answer::Refused(refusal)));
    }
    for number in [2, 4, 18, 0x0400, 0x01_0000] {
        assert_eq!(Answer::of(&call, number), None);
    }
}

#[test]
fn a_check_gives_nothing_but_0() {
    assert_eq!((Answer::Checked.bytes(&[]), Answer::Checked.number()), (vec![0], 0));
    assert_eq!(Answer::of(&Call::Check, 0), Some(Answer::Checked));
    for refusal in [1, 19] {
        assert_eq!(Answer::of(&Call::Check, refusal), Some(Answer::Refused(refusal)));
    }
    for number in [2, 3, 4, 11, 12, 18, 20, 1 << 8] {
        assert_eq!(Answer::of(&Call::Check, number), None);
    }
    assert_eq!(Answer::of(&Call::Clear, 19), None);
}

#[test]
fn a_number_is_an_answer_only_to_a_call_that_can_give_it() {
    let delivery = Call::Deliver { place: 0 };
    let delivered = Answer::Delivered { kind: 5, messages: 0x0102, outcome: READ_ENDED };
    assert_eq!(Answer::of(&delivery, 0x01_0102_0500), Some(delivered));
    assert_eq!(Answer::of(&delivery, 1 << 40), None);
    assert_eq!(Answer::of(&delivery, 10), Some(Answer::Refused(10)));
    assert_eq!(Answer::of(&delivery, 15), None);
    assert_eq!(Answer::of(&delivery, 0x010a), None);
    let read = Call::Read { client: 1, set: 1 };
    assert_eq!(Answer::of(&read, 0x8000), Some(Answer::Started { messages: 128 }));
    assert_eq!(Answer::of(&read, 1 << 24), None);
    let fast = Call::FastRead { client: 1, set: 1 };
    assert_eq!(Answer::of(&fast, 0x8000), Some(Answer::Started { messages: 128 }));
    assert_eq!(Answer::of(&fast, 8), Some(Answer::Refused(8)));
    assert_eq!(Answer::of(&fast, 17), None);
    let mixed = Call::Mixed { client: 1, read: 1, write: 1, values: vec![] };
    assert_eq!(Answer::of(&mixed, 0x8000), Some(Answer::Started { messages: 128 }));
    assert_eq!(Answer::of(&mixed, 17), Some(Answer::Refused(17)));
    assert_eq!(Answer::of(&mixed, 18), None);
    let ended = Answer::Delivered { kind: 5, messages: 1, outcome: WRITE_ENDED };
    assert_eq!(Answer::of(&delivery, 0x02_0001_0500), Some(ended));
}
