//! Lines that are no frames at all, beside the nearest that are.

use super::{example, Example, CLEAN};

const FIRST_LINE: &str = "0f0001";
const SECOND_LINE: &str = "0f0002";

pub fn examples() -> Vec<Example> {
    let mut examples = characters();
    examples.extend(kinds_and_lengths());
    examples
}

/// Lines that are not lowercase digits, two a byte, and a line end.
fn characters() -> Vec<Example> {
    let line = "2001000000000000000100000001000000a9\n";
    let one = |name, from: &str, to: &str| example(name, FIRST_LINE, &[&line.replace(from, to)]);
    vec![
        example("digits and a line end", CLEAN, &[line]),
        one("uppercase digit", "a", "A"),
        one("character before 0", "a9", "/9"),
        one("character after 9", "a9", ":9"),
        one("character before a", "a9", "`9"),
        one("character after f", "a9", "g9"),
        one("space for a digit", "a9", " 9"),
        one("NUL for a digit", "a9", "\09"),
        one("letter of two bytes", "a9", "é"),
        one("space at the end", "\n", " \n"),
        one("carriage return", "\n", "\r\n"),
        one("NUL at the end", "\n", "\0\n"),
        one("digit too many", "\n", "0\n"),
        one("digit too few", "9\n", "\n"),
        one("no line end", "\n", ""),
        one("carriage return for the line end", "\n", "\r"),
        example("line end alone", FIRST_LINE, &["\n"]),
        example("empty line above", FIRST_LINE, &["\n", line]),
        example("empty line below", SECOND_LINE, &[line, "\n"]),
        example(
            "last line without its end",
            SECOND_LINE,
            &[line, "210100000000000000010000000101000000a9"],
        ),
        example("single digit after the last line", SECOND_LINE, &[line, "2"]),
        Example { name: "byte ff", log: vec![0xff, b'\n'], verdict: FIRST_LINE },
    ]
}

fn kinds_and_lengths() -> Vec<Example> {
    let one = |name, line: &str| example(name, FIRST_LINE, &[line, "\n"]);
    vec![
        one("mixed transaction of a write's length", "2401000000000000000100000001000000a9"),
        one("kind 25", "25010000000000000001000000000000000000"),
        one("fast read of a write's length", "2301000000000000000100000001000000a9"),
        one("fast read without entries", "23020000000000000001"),
        one("fast read a byte short", "230200000000000000010000000000000000"),
        one("fast read a byte long", "2302000000000000000100000000000000000000"),
        example("fast read of one entry", CLEAN, &["23020000000000000001000000000000000000\n"]),
        one("kind 1f", "1f01000000000000000100000001000000a9"),
        one("kind 00", "0001000000000000000100000001000000a9"),
        one("kind alone", "20"),
        one("kind and client alone", "2101"),
        one("set a byte short", "210200000000000001"),
        one("write without number", "20010000000000000001"),
        one("write without values", "2001000000000000000100000001"),
        one("write a byte short", "2001000000000000000100000001000000"),
        one("write a byte long", "2001000000000000000100000001000000a900"),
        one("write with a value too many", "2001000000000000000100000001000000a9000000a9"),
        one("write with a value too few", "2001000000000000000300000001000000a9"),
        one("read without entries", "21020000000000000001"),
        one("read a byte short", "210200000000000000010000000000000000"),
        one("read a byte long", "2102000000000000000100000000000000000000"),
        one(
            "read with an entry too many",
            "21020000000000000001000000000000000000000000000000000000",
        ),
        one("read with an entry too few", "21020000000000000003000000000000000000"),
        example("read of one entry", CLEAN, &["21020000000000000001000000000000000000\n"]),
        one("hand-over of a write's length", "2201000000000000000100000001000000a9"),
        one("hand-over's kind alone", "22"),
        one("hand-over without receiver", "2201"),
        one("hand-over a byte long", "22010200"),
        one("hand-over a digit long", "2201020"),
        example("hand-over of three bytes", CLEAN, &["220102\n"]),
        one("two hand-overs on a line", "220102220203"),
        one(
            "two frames on a line",
            "2101000000000000000100000000000000000021010000000000000001000000000000000000",
        ),
    ]
}
