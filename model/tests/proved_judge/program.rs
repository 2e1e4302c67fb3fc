//! The program that judges its standard input.

use koolvent_model::judge::generate::{random_log, random_long_log, spoil};
use koolvent_model::judge::{examples, judge};
use koolvent_model::random::Random;
use std::fs::File;
use std::io::{ErrorKind, Write};
use std::process::{Child, Command, Stdio};

const PROGRAM: &str = concat!(env!("CARGO_MANIFEST_DIR"), "/../target/bin/judge_driver");

fn start(input: Stdio) -> Child {
    Command::new(PROGRAM)
        .stdin(input)
        .stdout(Stdio::piped())
        .spawn()
        .expect("the program, which tools/prove builds")
}

/// What the program prints for an input, handed over in parts of this length.
fn printed(input: &[u8], part: usize) -> String {
    let mut program = start(Stdio::piped());
    let mut pipe = program.stdin.take().expect("piped");
    for part in input.chunks(part) {
        match pipe.write_all(part) {
            Ok(()) => (),
            // Past the limit of a log the program need not read on.
            Err(error) if error.kind() == ErrorKind::BrokenPipe => break,
            Err(error) => panic!("{error}"),
        }
    }
    drop(pipe);
    let output = program.wait_with_output().expect("the program's output");
    assert!(output.status.success());
    String::from_utf8(output.stdout).expect("text")
}

/// The program prints the verdict of the model's judge as a line.
fn agreed(log: &[u8], part: usize) {
    let text = String::from_utf8_lossy(log);
    let expected = judge(log).text() + "\n";
    assert_eq!(printed(log, part), expected, "on\n{text}");
}

#[test]
fn examples_worked_out_by_hand() {
    for example in examples::all() {
        let expected = example.verdict.to_owned() + "\n";
        assert_eq!(printed(&example.log, 40_000), expected, "{}", example.name);
    }
}

#[test]
fn random_and_spoiled_logs() {
    let mut random = Random::new(41);
    for _ in 0..300 {
        let mut log = random_log(&mut random);
        if random.below(3) == 0 {
            spoil(&mut log, &mut random);
        }
        agreed(&log, 1 + random.below(500) as usize);
    }
    for _ in 0..50 {
        agreed(&random_long_log(&mut random), 1 + random.below(8_000) as usize);
    }
}

#[test]
fn inputs_of_any_length() {
    for length in [32_767, 32_768, 32_769, 65_535, 65_536, 65_537, 1 << 20] {
        for byte in [b'2', b'\n', 0, 255] {
            agreed(&vec![byte; length], 50_000);
        }
    }
}

/// A folder can be opened, and a read of it fails.
#[test]
fn a_failed_read_gives_no_verdict() {
    let folder = File::open(env!("CARGO_MANIFEST_DIR")).expect("the package's folder");
    let output = start(folder.into()).wait_with_output().expect("the program's output");
    assert_eq!(output.stdout, b"");
}
