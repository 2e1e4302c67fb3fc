//! Logs at and past the limits of refusal 16, and the greatest line numbers.

use super::{example, hand_over, read, write, Example, CLEAN, INITIAL};

const TOO_LONG: &str = "10";

pub fn examples() -> Vec<Example> {
    let mut examples = bytes();
    examples.extend(line_ends());
    examples
}

/// 32,768 bytes and one more.
fn bytes() -> Vec<Example> {
    let full = full_log(64);
    let unended = full[..32_767].to_owned() + "0";
    let junk = "x".repeat(32_768);
    vec![
        example("32,768 bytes", CLEAN, &[&full]),
        example("32,768 bytes and 256 line ends", CLEAN, &[&full_log(256)]),
        example("32,768 bytes, the last no line end", "0f0040", &[&unended]),
        example("32,769 bytes, the last no line end", TOO_LONG, &[&full, "2"]),
        example("32,769 bytes, the last a line end", TOO_LONG, &[&full, "\n"]),
        example("32,768 bytes of junk", "0f0001", &[&junk]),
        example("32,769 bytes of junk", TOO_LONG, &[&junk, "x"]),
    ]
}

/// 256 line ends and one more.
fn line_ends() -> Vec<Example> {
    let writes =
        |count| -> String { (1..=count).map(|number| write(1, 1, number, &[7])).collect() };
    let ends = "\n".repeat(256);
    let missed = read(1, 1, &[INITIAL]);
    let last = read(2, 1, &[(255, 1, 7)]);
    let unwritten = read(2, 1, &[(9, 8, 7)]);
    let hand_overs = |count: usize| hand_over(1, 2).repeat(count);
    let missed_by_2 = read(2, 1, &[INITIAL]);
    vec![
        example("256 writes", CLEAN, &[&writes(256)]),
        example("257 writes", TOO_LONG, &[&writes(257)]),
        example("256 line ends alone", "0f0001", &[&ends]),
        example("257 line ends alone", TOO_LONG, &[&ends, "\n"]),
        example("256 writes and a digit", "0f0101", &[&writes(256), "2"]),
        example("256 writes and an unended read", "0f0101", &[&writes(256), missed.trim_end()]),
        example("255 writes and an unended read", "0f0100", &[&writes(255), missed.trim_end()]),
        example("255 writes and an empty line", "0f0100", &[&writes(255), "\n"]),
        example(
            "empty line 100 of 256 and a tail",
            "0f0064",
            &[&writes(99), "\n", &ends[100..], "2"],
        ),
        example("fault at line 255", "000300ff", &[&writes(254), &missed, &missed]),
        example("fault at line 256", "00030100", &[&writes(255), &missed]),
        example("fault at line 1 of 256", "00010001", &[&unwritten, &writes(255)]),
        example("fault at line 1 of 257", TOO_LONG, &[&unwritten, &writes(256)]),
        example("write 255 lines below its read", CLEAN, &[&last, &writes(255)]),
        example("256 hand-overs", CLEAN, &[&hand_overs(256)]),
        example("257 hand-overs", TOO_LONG, &[&hand_overs(257)]),
        example("256 hand-overs and a digit", "0f0101", &[&hand_overs(256), "2"]),
        example(
            "giver's write missed below 254 hand-overs",
            "00030100",
            &[&writes(1), &hand_overs(254), &missed_by_2],
        ),
        example(
            "254 writes of a giver, the first shown",
            "00030100",
            &[&writes(254), &hand_over(1, 2), &read(2, 1, &[(1, 1, 7)])],
        ),
        example(
            "254 writes of a giver, the last shown",
            CLEAN,
            &[&writes(254), &hand_over(1, 2), &read(2, 1, &[(254, 1, 7)])],
        ),
    ]
}

/// Writes by client 1 that make 32,768 bytes together; a write of n items is a line of 29 + 8 n.
/// The number of lines is a multiple of 8 from 64 to 256.
fn full_log(lines: u32) -> String {
    let values = (32_768 - 29 * lines) / 8;
    (0..lines)
        .map(|line| {
            let items = values / lines + u32::from(line < values % lines);
            write(1, (1 << items) - 1, line + 1, &vec![7; items as usize])
        })
        .collect()
}
