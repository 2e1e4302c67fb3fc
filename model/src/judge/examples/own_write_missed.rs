//! Finding 3 with its nearest clean logs.

use super::{example, read, write, Example, CLEAN, INITIAL};

pub fn examples() -> Vec<Example> {
    let pair = write(1, 0b11, 1, &[7, 8]);
    let again = write(1, 0b1, 2, &[9]);
    vec![
        example(
            "both initial to another client",
            CLEAN,
            &[&pair, &read(2, 0b11, &[INITIAL, INITIAL])],
        ),
        example(
            "both initial to the writer",
            "00030002",
            &[&pair, &read(1, 0b11, &[INITIAL, INITIAL])],
        ),
        example("own write shown", CLEAN, &[&pair, &read(1, 0b11, &[(1, 1, 7), (1, 1, 8)])]),
        example("own write below the read", CLEAN, &[&read(1, 0b11, &[INITIAL, INITIAL]), &pair]),
        example("own write of another item", CLEAN, &[&pair, &read(1, 0b100, &[INITIAL])]),
        example(
            "own earlier write shown",
            "00030003",
            &[&pair, &again, &read(1, 0b1, &[(1, 1, 7)])],
        ),
        example(
            "own earlier write of the item the later left",
            CLEAN,
            &[&pair, &again, &read(1, 0b11, &[(2, 1, 9), (1, 1, 8)])],
        ),
        example(
            "equal number of a greater client shown",
            CLEAN,
            &[&pair, &write(2, 0b1, 1, &[9]), &read(1, 0b1, &[(1, 2, 9)])],
        ),
        example(
            "equal number of a smaller client shown",
            "00030003",
            &[&pair, &write(2, 0b1, 1, &[9]), &read(2, 0b1, &[(1, 1, 7)])],
        ),
        example(
            "smaller number of a greater client shown",
            "00030003",
            &[&write(2, 0b1, 1, &[9]), &write(1, 0b1, 2, &[7]), &read(1, 0b1, &[(1, 2, 9)])],
        ),
    ]
}
