//! Mixed transactions: the read part as above its own write, the write part as a `20` line.

use super::{example, fast_read, hand_over, mixed, read, write, Example, CLEAN, INITIAL};

pub fn examples() -> Vec<Example> {
    [read_parts(), write_parts(), lines()].into_iter().flatten().collect()
}

/// What a read part shows: findings as of a `21` line that stands above its own write.
fn read_parts() -> Vec<Example> {
    let own = write(1, 0b1, 1, &[7]);
    let pair = write(1, 0b11, 1, &[7, 8]);
    vec![
        example(
            "item initial to its own writer",
            CLEAN,
            &[&mixed(1, (0b1, &[INITIAL]), (0b1, 1, &[7]))],
        ),
        example(
            "older entry of an item that it writes",
            CLEAN,
            &[&own, &mixed(1, (0b1, &[(1, 1, 7)]), (0b1, 2, &[9]))],
        ),
        example(
            "own write missed by a mixed transaction",
            "00030002",
            &[&own, &mixed(1, (0b1, &[INITIAL]), (0b1, 2, &[9]))],
        ),
        example(
            "giver's write missed by a mixed transaction",
            "00030003",
            &[&own, &hand_over(1, 2), &mixed(2, (0b1, &[INITIAL]), (0b10, 2, &[9]))],
        ),
        example(
            "fractured mixed transaction",
            "00020002",
            &[&pair, &mixed(2, (0b11, &[(1, 1, 7), INITIAL]), (0b1, 2, &[9]))],
        ),
        example(
            "whole mixed transaction",
            CLEAN,
            &[&pair, &mixed(2, (0b11, &[(1, 1, 7), (1, 1, 8)]), (0b11, 2, &[9, 9]))],
        ),
        example(
            "unwritten mixed transaction",
            "00010001",
            &[&mixed(2, (0b1, &[(1, 1, 7)]), (0b1, 2, &[9]))],
        ),
        example(
            "mixed transaction that shows its own write",
            CLEAN,
            &[&mixed(2, (0b1, &[(2, 2, 9)]), (0b1, 2, &[9]))],
        ),
        example(
            "mixed transaction fractured by its own write",
            "00020001",
            &[&mixed(2, (0b11, &[(2, 2, 9), INITIAL]), (0b11, 2, &[9, 9]))],
        ),
    ]
}

/// What a write part is to other lines, and to the rise of its client's numbers.
fn write_parts() -> Vec<Example> {
    let both = mixed(1, (0b1, &[INITIAL]), (0b11, 1, &[7, 8]));
    vec![
        example("read of a mixed write", CLEAN, &[&both, &read(2, 0b1, &[(1, 1, 7)])]),
        example("read above a mixed write", CLEAN, &[&read(2, 0b1, &[(1, 1, 7)]), &both]),
        example(
            "read of another value than a mixed write's",
            "00010002",
            &[&both, &read(2, 0b1, &[(1, 1, 8)])],
        ),
        example(
            "read fractured by a mixed write",
            "00020002",
            &[&both, &read(2, 0b11, &[(1, 1, 7), INITIAL])],
        ),
        example(
            "read fractured by a mixed write below",
            "00020001",
            &[&read(2, 0b11, &[(1, 1, 7), INITIAL]), &both],
        ),
        example("own mixed write missed", "00030002", &[&both, &read(1, 0b10, &[INITIAL])]),
        example("own mixed write missed above it", CLEAN, &[&read(1, 0b10, &[INITIAL]), &both]),
        example(
            "own mixed write missed by a mixed transaction",
            "00030002",
            &[&both, &mixed(1, (0b10, &[INITIAL]), (0b1, 2, &[9]))],
        ),
        example(
            "own mixed write missed by a fast read",
            CLEAN,
            &[&both, &fast_read(1, 0b10, &[INITIAL])],
        ),
        example(
            "giver's mixed write missed",
            "00030003",
            &[&both, &hand_over(1, 2), &read(2, 0b10, &[INITIAL])],
        ),
        example(
            "mixed numbers rise",
            CLEAN,
            &[&both, &write(1, 1, 2, &[9]), &mixed(1, (1, &[(2, 1, 9)]), (1, 3, &[9]))],
        ),
        example("write number of a mixed one above", "0f0002", &[&both, &write(1, 1, 1, &[9])]),
        example("mixed number of a write above", "0f0002", &[&write(1, 1, 1, &[9]), &both]),
        example("equal mixed numbers", "0f0002", &[&both, &both]),
        example(
            "equal mixed numbers of two clients",
            CLEAN,
            &[&both, &mixed(2, (1, &[INITIAL]), (1, 1, &[9]))],
        ),
    ]
}

/// Which lines are malformed.
fn lines() -> Vec<Example> {
    let part = mixed(1, (0b1, &[INITIAL]), (0b1, 1, &[7]));
    let longer = part.replace('\n', "00\n");
    let shorter = format!("{}\n", &part[..part.len() - 3]);
    let read_alone = format!("{}\n", &part[..2 * 19]);
    let swapped = "240100000000000000010000000100000007000000000000000100000000000000000000\n";
    let first = "0f0001";
    vec![
        example(
            "mixed transaction by client 0",
            first,
            &[&mixed(0, (1, &[INITIAL]), (1, 1, &[7]))],
        ),
        example(
            "mixed transaction by client 8",
            CLEAN,
            &[&mixed(8, (1, &[INITIAL]), (1, 1, &[7]))],
        ),
        example(
            "mixed transaction by client 9",
            first,
            &[&mixed(9, (1, &[INITIAL]), (1, 1, &[7]))],
        ),
        example(
            "mixed transaction that reads nothing",
            first,
            &[&mixed(1, (0, &[]), (1, 1, &[7]))],
        ),
        example(
            "mixed transaction that writes nothing",
            first,
            &[&mixed(1, (1, &[INITIAL]), (0, 1, &[]))],
        ),
        example("mixed number 0", first, &[&mixed(1, (1, &[INITIAL]), (1, 0, &[7]))]),
        example(
            "mixed entry with number 1 of client 0",
            first,
            &[&mixed(1, (1, &[(1, 0, 0)]), (1, 1, &[7]))],
        ),
        example(
            "mixed transaction of all items",
            CLEAN,
            &[&mixed(1, (u64::MAX, &[INITIAL; 64]), (u64::MAX, 1, &[7; 64]))],
        ),
        example("mixed transaction a byte long", first, &[&longer]),
        example("mixed transaction a byte short", first, &[&shorter]),
        example("mixed transaction without its write part", first, &[&read_alone]),
        example("mixed transaction with its parts swapped", first, &[swapped]),
    ]
}
