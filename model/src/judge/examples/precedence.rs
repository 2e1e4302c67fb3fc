//! Several faults in one log: the first line at fault is named, and there the lowest finding.

use super::{example, read, write, Example, INITIAL};

pub fn examples() -> Vec<Example> {
    let pair = write(1, 0b11, 1, &[7, 8]);
    let missed = read(1, 0b10, &[INITIAL]);
    let fractured = read(2, 0b11, &[(1, 1, 7), INITIAL]);
    let unwritten = read(2, 0b10, &[(0, 0, 1)]);
    vec![
        example(
            "all three on one line",
            "00010002",
            &[&pair, &read(1, 0b111, &[(1, 1, 7), INITIAL, (0, 0, 1)])],
        ),
        example(
            "fractured and missed on one line",
            "00020002",
            &[&pair, &read(1, 0b11, &[(1, 1, 7), INITIAL])],
        ),
        example(
            "unwritten and missed on one line",
            "00010002",
            &[&pair, &read(1, 0b101, &[INITIAL, (0, 0, 1)])],
        ),
        example("missed above unwritten", "00030002", &[&pair, &missed, &unwritten]),
        example("fractured above unwritten", "00020002", &[&pair, &fractured, &unwritten]),
        example(
            "clean read above a fault",
            "00020003",
            &[&pair, &read(1, 0b1, &[(1, 1, 7)]), &fractured, &missed],
        ),
    ]
}
