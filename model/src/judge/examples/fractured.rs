//! Finding 2 with its nearest clean logs.

use super::{example, read, write, Example, CLEAN, INITIAL};

pub fn examples() -> Vec<Example> {
    let pair = write(1, 0b11, 1, &[7, 8]);
    let wide = write(1, u64::MAX, 1, &[5; 64]);
    let mut almost_whole = [(1, 1, 5); 64];
    almost_whole[63] = INITIAL;
    vec![
        example(
            "fractured the other way round",
            "00020002",
            &[&pair, &read(2, 0b11, &[INITIAL, (1, 1, 8)])],
        ),
        example(
            "fractured by a write below",
            "00020001",
            &[&read(2, 0b11, &[(1, 1, 7), INITIAL]), &pair],
        ),
        example("sibling not shown", CLEAN, &[&pair, &read(2, 0b1, &[(1, 1, 7)])]),
        example(
            "initial item beside the write's",
            CLEAN,
            &[&pair, &read(2, 0b101, &[(1, 1, 7), INITIAL])],
        ),
        example(
            "neither entry of the write shown",
            CLEAN,
            &[&pair, &read(2, 0b11, &[INITIAL, INITIAL])],
        ),
        example("64 items whole", CLEAN, &[&wide, &read(2, u64::MAX, &[(1, 1, 5); 64])]),
        example("63 of 64 items", "00020002", &[&wide, &read(2, u64::MAX, &almost_whole)]),
        example(
            "sibling shown later",
            CLEAN,
            &[&pair, &write(2, 0b10, 2, &[9]), &read(3, 0b11, &[(1, 1, 7), (2, 2, 9)])],
        ),
        example(
            "sibling shown earlier",
            "00020003",
            &[
                &write(2, 0b10, 1, &[9]),
                &write(1, 0b11, 2, &[7, 8]),
                &read(3, 0b11, &[(2, 1, 7), (1, 2, 9)]),
            ],
        ),
        example(
            "equal numbers, sibling of a smaller client",
            "00020003",
            &[
                &write(2, 0b11, 1, &[7, 8]),
                &write(1, 0b10, 1, &[9]),
                &read(3, 0b11, &[(1, 2, 7), (1, 1, 9)]),
            ],
        ),
        example(
            "equal numbers, sibling of a greater client",
            CLEAN,
            &[
                &write(1, 0b11, 1, &[7, 8]),
                &write(2, 0b10, 1, &[9]),
                &read(3, 0b11, &[(1, 1, 7), (1, 2, 9)]),
            ],
        ),
        example(
            "greater number of a smaller client",
            CLEAN,
            &[
                &write(2, 0b11, 1, &[7, 8]),
                &write(1, 0b10, 2, &[9]),
                &read(3, 0b11, &[(1, 2, 7), (2, 1, 9)]),
            ],
        ),
    ]
}
