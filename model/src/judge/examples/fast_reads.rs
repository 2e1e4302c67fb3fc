//! Fast reads: findings 1 and 2 as of other reads, and no finding 3.

use super::{example, fast_read, hand_over, read, write, Example, CLEAN, INITIAL};

pub fn examples() -> Vec<Example> {
    let own = write(1, 0b1, 1, &[7]);
    let pair = write(1, 0b11, 1, &[7, 8]);
    let again = write(1, 0b1, 2, &[9]);
    let missed = read(1, 0b1, &[INITIAL]);
    let fast = fast_read(1, 0b1, &[INITIAL]);
    vec![
        example("own write missed by a fast read", CLEAN, &[&own, &fast]),
        example("own write shown by a fast read", CLEAN, &[&own, &fast_read(1, 0b1, &[(1, 1, 7)])]),
        example(
            "own later write missed by a fast read",
            CLEAN,
            &[&own, &again, &fast_read(1, 0b1, &[(1, 1, 7)])],
        ),
        example("own write missed below a fast read", "00030003", &[&own, &fast, &missed]),
        example("own write missed above a fast read", "00030002", &[&own, &missed, &fast]),
        example(
            "giver's write missed by a fast read",
            CLEAN,
            &[&own, &hand_over(1, 2), &fast_read(2, 0b1, &[INITIAL])],
        ),
        example(
            "fast read older than one above it",
            CLEAN,
            &[&own, &read(2, 0b1, &[(1, 1, 7)]), &fast_read(2, 0b1, &[INITIAL])],
        ),
        example(
            "fractured fast read",
            "00020002",
            &[&pair, &fast_read(2, 0b11, &[(1, 1, 7), INITIAL])],
        ),
        example(
            "fast read fractured by a write below",
            "00020001",
            &[&fast_read(2, 0b11, &[INITIAL, (1, 1, 8)]), &pair],
        ),
        example(
            "fractured fast read of an own write",
            "00020002",
            &[&pair, &fast_read(1, 0b11, &[(1, 1, 7), INITIAL])],
        ),
        example("whole fast read", CLEAN, &[&pair, &fast_read(2, 0b11, &[(1, 1, 7), (1, 1, 8)])]),
        example(
            "both initial to a fast read of the writer",
            CLEAN,
            &[&pair, &fast_read(1, 0b11, &[INITIAL, INITIAL])],
        ),
        example("unwritten fast read", "00010001", &[&fast_read(2, 0b1, &[(1, 1, 7)])]),
        example("initial stamp with a value, fast", "00010001", &[&fast_read(2, 1, &[(0, 0, 1)])]),
        example(
            "unwritten fast read that misses an own write",
            "00010002",
            &[&pair, &fast_read(1, 0b101, &[INITIAL, (0, 0, 1)])],
        ),
        example("write below its fast read", CLEAN, &[&fast_read(2, 0b1, &[(1, 1, 7)]), &own]),
        example(
            "fast read writes nothing",
            "00010002",
            &[&fast_read(1, 0b1, &[INITIAL]), &read(2, 0b1, &[(1, 1, 0)])],
        ),
        example(
            "equal numbers with a fast read between",
            "0f0003",
            &[&own, &fast_read(1, 0b1, &[INITIAL]), &own],
        ),
    ]
}
