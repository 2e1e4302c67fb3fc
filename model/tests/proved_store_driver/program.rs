//! The program, run on an input.

use koolvent_model::frames::store::run;
use std::io::{Read, Write};
use std::process::{Child, Command, Stdio};
use std::thread;
use std::time::{Duration, Instant};

const PROGRAM: &str = concat!(env!("CARGO_MANIFEST_DIR"), "/../target/bin/store_driver");

/// How long the program may take for what takes it a moment.
pub const PATIENCE: Duration = Duration::from_secs(20);

pub fn start(input: Stdio, output: Stdio) -> Child {
    Command::new(PROGRAM)
        .stdin(input)
        .stdout(output)
        .spawn()
        .expect("the program, which tools/prove builds")
}

/// What the program prints for an input, handed over in parts of this length while its output is
/// read.
pub fn printed(input: &[u8], part: usize) -> String {
    let mut program = start(Stdio::piped(), Stdio::piped());
    let mut to = program.stdin.take().expect("piped");
    let mut from = program.stdout.take().expect("piped");
    let mut output = String::new();
    thread::scope(|scope| {
        scope.spawn(move || {
            for part in input.chunks(part) {
                to.write_all(part).expect("the program reads on");
            }
        });
        from.read_to_string(&mut output).expect("text");
    });
    assert!(program.wait().expect("the program's end").success());
    output
}

/// The program prints what the model's driver prints.
pub fn agreed(input: &[u8], part: usize) {
    let (printed, expected) = (printed(input, part), run(input));
    if printed == expected {
        return;
    }
    let mut lines = input.split(|byte| *byte == b'\n');
    let answers = printed.lines().zip(expected.lines());
    for (number, (printed, expected)) in answers.enumerate() {
        let line = String::from_utf8_lossy(lines.next().unwrap_or_default());
        assert_eq!(printed, expected, "line {}: {line:.600}", number + 1);
    }
    panic!(
        "{} bytes of answers for {}, the last line ended: {}",
        printed.len(),
        expected.len(),
        printed.ends_with('\n')
    );
}

/// The program ends by itself.
pub fn ends(program: &mut Child) {
    let start = Instant::now();
    while program.try_wait().expect("a child").is_none() {
        if start.elapsed() > PATIENCE {
            program.kill().expect("a child that runs");
            panic!("the program doesn't end");
        }
        thread::sleep(Duration::from_millis(2));
    }
}
