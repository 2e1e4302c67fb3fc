//! Frames with a field that the judge won't take, beside the nearest that it takes.

use super::{example, fast_read, hand_over, read, write, Example, CLEAN, INITIAL};

const FIRST_LINE: &str = "0f0001";
const SECOND_LINE: &str = "0f0002";
const THIRD_LINE: &str = "0f0003";

pub fn examples() -> Vec<Example> {
    let all =
        [clients_and_sets(), hand_overs(), numbers(), stamps(), first_of_several()].into_iter();
    all.flatten().collect()
}

fn clients_and_sets() -> Vec<Example> {
    vec![
        example("write by client 0", FIRST_LINE, &[&write(0, 1, 1, &[7])]),
        example("write by client 1", CLEAN, &[&write(1, 1, 1, &[7])]),
        example("write by client 8", CLEAN, &[&write(8, 1, 1, &[7])]),
        example("write by client 9", FIRST_LINE, &[&write(9, 1, 1, &[7])]),
        example("write by client 255", FIRST_LINE, &[&write(255, 1, 1, &[7])]),
        example("read by client 0", FIRST_LINE, &[&read(0, 1, &[INITIAL])]),
        example("read by client 1", CLEAN, &[&read(1, 1, &[INITIAL])]),
        example("read by client 8", CLEAN, &[&read(8, 1, &[INITIAL])]),
        example("read by client 9", FIRST_LINE, &[&read(9, 1, &[INITIAL])]),
        example("fast read by client 0", FIRST_LINE, &[&fast_read(0, 1, &[INITIAL])]),
        example("fast read by client 1", CLEAN, &[&fast_read(1, 1, &[INITIAL])]),
        example("fast read by client 8", CLEAN, &[&fast_read(8, 1, &[INITIAL])]),
        example("fast read by client 9", FIRST_LINE, &[&fast_read(9, 1, &[INITIAL])]),
        example("fast read of an empty set", FIRST_LINE, &[&fast_read(1, 0, &[])]),
        example("fast read of all items", CLEAN, &[&fast_read(1, u64::MAX, &[INITIAL; 64])]),
        example("write of an empty set", FIRST_LINE, &[&write(1, 0, 1, &[])]),
        example("read of an empty set", FIRST_LINE, &[&read(1, 0, &[])]),
        example("write of all items", CLEAN, &[&write(1, u64::MAX, 1, &[7; 64])]),
        example("read of all items", CLEAN, &[&read(1, u64::MAX, &[INITIAL; 64])]),
    ]
}

/// Two different clients of 1..8.
fn hand_overs() -> Vec<Example> {
    vec![
        example("hand-over from 1 to 8", CLEAN, &[&hand_over(1, 8)]),
        example("hand-over from 8 to 1", CLEAN, &[&hand_over(8, 1)]),
        example("hand-over from 0", FIRST_LINE, &[&hand_over(0, 1)]),
        example("hand-over from 9", FIRST_LINE, &[&hand_over(9, 1)]),
        example("hand-over from 255", FIRST_LINE, &[&hand_over(255, 1)]),
        example("hand-over to 0", FIRST_LINE, &[&hand_over(1, 0)]),
        example("hand-over to 9", FIRST_LINE, &[&hand_over(1, 9)]),
        example("hand-over to 255", FIRST_LINE, &[&hand_over(1, 255)]),
        example("hand-over to the giver itself", FIRST_LINE, &[&hand_over(3, 3)]),
        example("hand-over from 0 to 0", FIRST_LINE, &[&hand_over(0, 0)]),
        example(
            "hand-over to the giver itself below others",
            THIRD_LINE,
            &[&write(1, 1, 1, &[7]), &hand_over(1, 2), &hand_over(2, 2)],
        ),
        example("clients that wrote nothing", CLEAN, &[&hand_over(7, 8), &hand_over(8, 7)]),
    ]
}

/// Numbers of one client's writes rise strictly, from 1 or more; what a client takes over has none.
fn numbers() -> Vec<Example> {
    let by = |client, number| write(client, 1, number, &[7]);
    vec![
        example("number 0", FIRST_LINE, &[&by(1, 0)]),
        example("first number 5", CLEAN, &[&by(1, 5)]),
        example("greatest number", CLEAN, &[&by(1, u32::MAX)]),
        example("rising numbers", CLEAN, &[&by(1, 1), &by(1, 2)]),
        example("rising by more than one", CLEAN, &[&by(1, 1), &by(1, 1 << 31), &by(1, u32::MAX)]),
        example("equal numbers", SECOND_LINE, &[&by(1, 2), &by(1, 2)]),
        example("falling numbers", SECOND_LINE, &[&by(1, 2), &by(1, 1)]),
        example("falling to 0", SECOND_LINE, &[&by(1, 2), &by(1, 0)]),
        example("falling from the greatest", SECOND_LINE, &[&by(1, u32::MAX), &by(1, 1)]),
        example("equal numbers of two clients", CLEAN, &[&by(1, 2), &by(2, 2)]),
        example("falling numbers of two clients", CLEAN, &[&by(2, 2), &by(1, 1)]),
        example(
            "equal numbers with another client between",
            THIRD_LINE,
            &[&by(1, 2), &by(2, 9), &by(1, 2)],
        ),
        example(
            "equal numbers with a read between",
            THIRD_LINE,
            &[&by(1, 2), &read(2, 1, &[INITIAL]), &by(1, 2)],
        ),
        example(
            "numbers of each client rising on their own",
            CLEAN,
            &[&by(2, 9), &by(1, 1), &by(1, 2)],
        ),
        example(
            "equal numbers with a hand-over between",
            THIRD_LINE,
            &[&by(1, 2), &hand_over(1, 2), &by(1, 2)],
        ),
        example(
            "number of the receiver equal to the giver's",
            CLEAN,
            &[&by(1, 2), &hand_over(1, 2), &by(2, 2)],
        ),
        example(
            "number of the giver below the receiver's",
            CLEAN,
            &[&by(2, 2), &hand_over(1, 2), &by(1, 1)],
        ),
        example("equal numbers of other items", SECOND_LINE, &[&by(1, 2), &write(1, 2, 2, &[7])]),
    ]
}

/// In a read, number and writing client are both 0, or at least 1 and 1..8.
fn stamps() -> Vec<Example> {
    let shows = |number, client| read(2, 1, &[(number, client, 0)]);
    vec![
        example("shown number 0 of client 1", FIRST_LINE, &[&shows(0, 1)]),
        example("shown number 0 of client 9", FIRST_LINE, &[&shows(0, 9)]),
        example("shown number 1 of client 0", FIRST_LINE, &[&shows(1, 0)]),
        example("shown number 1 of client 9", FIRST_LINE, &[&shows(1, 9)]),
        example("shown number 1 of client 255", FIRST_LINE, &[&shows(1, 255)]),
        example("shown number 1 of client 8, unwritten", "00010001", &[&shows(1, 8)]),
        example("shown greatest number of client 1, unwritten", "00010001", &[&shows(u32::MAX, 1)]),
        example(
            "fast read with number 1 of client 0",
            FIRST_LINE,
            &[&fast_read(2, 1, &[(1, 0, 0)])],
        ),
        example(
            "fast read with number 0 of client 1",
            FIRST_LINE,
            &[&fast_read(2, 1, &[(0, 1, 0)])],
        ),
        example(
            "bad stamp in the last entry",
            FIRST_LINE,
            &[&read(2, 0b11, &[INITIAL, (1, 0, 0)])],
        ),
    ]
}

fn first_of_several() -> Vec<Example> {
    let good = write(1, 1, 1, &[7]);
    let equal = write(1, 1, 1, &[7]);
    let unwritten = read(2, 1, &[(9, 3, 7)]);
    let bad = "bad\n";
    vec![
        example("two bad lines", SECOND_LINE, &[&good, bad, bad]),
        example("equal number above bad text", SECOND_LINE, &[&good, &equal, bad]),
        example("bad text above an equal number", SECOND_LINE, &[&good, bad, &equal]),
        example("unwritten read above a bad line", SECOND_LINE, &[&unwritten, bad]),
        example("unwritten read above an unended line", THIRD_LINE, &[&good, &unwritten, "2"]),
    ]
}
