//! Finding 1 with its nearest clean logs.

use super::{example, read, write, Example, CLEAN, INITIAL};

pub fn examples() -> Vec<Example> {
    let pair = write(1, 0b1010, 1, &[7, 8]);
    vec![
        example("initial entries alone", CLEAN, &[&read(2, 1 << 63 | 1, &[INITIAL, INITIAL])]),
        example("initial stamp with a value", "00010001", &[&read(2, 1, &[(0, 0, 1)])]),
        example("stamp of no write", "00010001", &[&read(2, 1, &[(1, 1, 0)])]),
        example("value of its item", CLEAN, &[&pair, &read(2, 0b1000, &[(1, 1, 8)])]),
        example("value of another item", "00010002", &[&pair, &read(2, 0b1000, &[(1, 1, 7)])]),
        example("item the write didn't write", "00010002", &[&pair, &read(2, 0b100, &[(1, 1, 7)])]),
        example("number of no write", "00010002", &[&pair, &read(2, 0b10, &[(2, 1, 7)])]),
        example("another client's number", "00010002", &[&pair, &read(2, 0b10, &[(1, 2, 7)])]),
        example("write below the read", CLEAN, &[&read(2, 0b10, &[(1, 1, 7)]), &pair]),
        example(
            "one of two entries unwritten",
            "00010002",
            &[&pair, &read(2, 0b11, &[(9, 8, 7), (1, 1, 7)])],
        ),
        example(
            "greatest item, number, client and value",
            CLEAN,
            &[
                &write(8, 1 << 63, u32::MAX, &[u32::MAX]),
                &read(8, 1 << 63, &[(u32::MAX, 8, u32::MAX)]),
            ],
        ),
        example("0 written", CLEAN, &[&write(1, 1, 1, &[0]), &read(2, 1, &[(1, 1, 0)])]),
    ]
}
