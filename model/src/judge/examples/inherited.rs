//! Finding 3 below hand-overs, with its nearest clean logs.

use super::{example, hand_over, read, write, Example, CLEAN, INITIAL};

pub fn examples() -> Vec<Example> {
    let mut examples = one_hand_over();
    examples.extend(chains());
    examples.extend(other_findings());
    examples
}

fn one_hand_over() -> Vec<Example> {
    let own = write(1, 0b1, 1, &[7]);
    let again = write(1, 0b1, 2, &[8]);
    let taken = hand_over(1, 2);
    let missed_by = |client| read(client, 0b1, &[INITIAL]);
    vec![
        example("hand-over alone", CLEAN, &[&taken]),
        example("giver's write missed", "00030003", &[&own, &taken, &missed_by(2)]),
        example("giver's write shown", CLEAN, &[&own, &taken, &read(2, 0b1, &[(1, 1, 7)])]),
        example(
            "giver's write of another item",
            CLEAN,
            &[&own, &taken, &read(2, 0b10, &[INITIAL])],
        ),
        example("giver's write below the hand-over", CLEAN, &[&taken, &own, &missed_by(2)]),
        example("read above the hand-over", CLEAN, &[&own, &missed_by(2), &taken]),
        example("giver's write missed by a third", CLEAN, &[&own, &taken, &missed_by(3)]),
        example("giver's write missed by the giver", "00030003", &[&own, &taken, &missed_by(1)]),
        example(
            "receiver's write missed by the giver",
            CLEAN,
            &[&write(2, 0b1, 1, &[7]), &taken, &missed_by(1)],
        ),
        example(
            "receiver's own write missed",
            "00030003",
            &[&write(2, 0b1, 1, &[7]), &taken, &missed_by(2)],
        ),
        example(
            "receiver's own write missed below the hand-over",
            "00030003",
            &[&taken, &write(2, 0b1, 1, &[7]), &missed_by(2)],
        ),
        example(
            "giver's later write below the hand-over",
            CLEAN,
            &[&own, &taken, &again, &read(2, 0b1, &[(1, 1, 7)])],
        ),
        example(
            "giver's later write handed over again",
            "00030005",
            &[&own, &taken, &again, &taken, &read(2, 0b1, &[(1, 1, 7)])],
        ),
        example(
            "later write of the receiver shown",
            CLEAN,
            &[&own, &taken, &write(2, 0b1, 2, &[9]), &read(2, 0b1, &[(2, 2, 9)])],
        ),
        example(
            "equal number of the receiver shown",
            CLEAN,
            &[&own, &write(2, 0b1, 1, &[9]), &taken, &read(2, 0b1, &[(1, 2, 9)])],
        ),
        example(
            "equal number of a greater giver missed",
            "00030004",
            &[&own, &write(2, 0b1, 1, &[9]), &hand_over(2, 1), &read(1, 0b1, &[(1, 1, 7)])],
        ),
    ]
}

/// From client 1 to 2 and from 2 to 3.
fn chains() -> Vec<Example> {
    let own = write(1, 0b1, 1, &[7]);
    let [first, second] = [hand_over(1, 2), hand_over(2, 3)];
    let missed_by = |client| read(client, 0b1, &[INITIAL]);
    vec![
        example("chain in order", "00030004", &[&own, &first, &second, &missed_by(3)]),
        example("chain out of order", CLEAN, &[&own, &second, &first, &missed_by(3)]),
        example(
            "chain out of order, missed by its first receiver",
            "00030004",
            &[&own, &second, &first, &missed_by(2)],
        ),
        example("chain with the write within", CLEAN, &[&first, &own, &second, &missed_by(3)]),
        example(
            "chain with the second giver's write within",
            "00030004",
            &[&first, &write(2, 0b1, 1, &[7]), &second, &missed_by(3)],
        ),
        example(
            "chain with the read within",
            "00030005",
            &[&own, &first, &missed_by(3), &second, &missed_by(3)],
        ),
        example(
            "chain around",
            CLEAN,
            &[&first, &second, &hand_over(3, 1), &own, &missed_by(2), &missed_by(3)],
        ),
        example(
            "chain around twice",
            "00030007",
            &[&first, &own, &second, &hand_over(3, 1), &first, &second, &missed_by(3)],
        ),
        example(
            "handed back",
            "00030005",
            &[
                &hand_over(1, 2),
                &write(2, 0b1, 1, &[7]),
                &hand_over(2, 1),
                &missed_by(3),
                &missed_by(1),
            ],
        ),
        example(
            "two receivers of one giver",
            "00030005",
            &[&own, &first, &hand_over(1, 3), &read(2, 0b1, &[(1, 1, 7)]), &missed_by(3)],
        ),
        example(
            "chain through all eight clients",
            "00030009",
            &[
                &own,
                &(1..8).map(|giver| hand_over(giver, giver + 1)).collect::<String>(),
                &missed_by(8),
            ],
        ),
        example(
            "chain through all eight clients the other way",
            CLEAN,
            &[
                &own,
                &(1..8).rev().map(|giver| hand_over(giver, giver + 1)).collect::<String>(),
                &(3..=8).map(missed_by).collect::<String>(),
            ],
        ),
    ]
}

/// A hand-over shows and writes nothing.
fn other_findings() -> Vec<Example> {
    let pair = write(1, 0b11, 1, &[7, 8]);
    let taken = hand_over(1, 2);
    let half = read(3, 0b11, &[(1, 1, 7), INITIAL]);
    let whole = read(3, 0b11, &[(1, 1, 7), (1, 1, 8)]);
    vec![
        example(
            "fractured and a giver's write missed on one line",
            "00020003",
            &[&pair, &taken, &read(2, 0b11, &[(1, 1, 7), INITIAL])],
        ),
        example(
            "fractured above a giver's write missed",
            "00020002",
            &[&pair, &half, &taken, &read(2, 0b1, &[INITIAL])],
        ),
        example(
            "unwritten below a hand-over",
            "00010002",
            &[&taken, &read(2, 0b1, &[(1, 1, 7)]), &write(1, 0b10, 1, &[7])],
        ),
        example("stamp of a hand-over", "00010002", &[&taken, &read(2, 0b1, &[(1, 1, 0)])]),
        example("fractured below others' hand-over", "00020003", &[&pair, &taken, &half]),
        example("fractured between a hand-over and the write", "00020002", &[&taken, &half, &pair]),
        example("write below the read below a hand-over", CLEAN, &[&taken, &whole, &pair]),
    ]
}
