//! Reads and writes that fail: nothing more is printed, and the program ends.

use crate::program::{ends, start};
use std::fs::File;
use std::io::Write;
use std::process::{Child, Stdio};
use std::thread;

/// So many lines that their answers fill any pipe.
fn many_lines() -> Vec<u8> {
    b"01020202\n02010000000000000003\n040000\n".repeat(50_000)
}

/// A folder can be opened, and a read of it fails.
#[test]
fn a_failed_read_prints_nothing() {
    let folder = File::open(env!("CARGO_MANIFEST_DIR")).expect("the package's folder");
    let program = start(folder.into(), Stdio::piped());
    let output = program.wait_with_output().expect("the program's output");
    assert_eq!(output.stdout, b"");
}

/// Writes many lines to the program, which may end before it has read them, and waits for its end.
fn ends_on_many_lines(mut program: Child, stays_open: bool) {
    let mut to = program.stdin.take().expect("piped");
    thread::scope(|scope| {
        let writer = scope.spawn(move || {
            let _ = to.write_all(&many_lines());
            stays_open.then_some(to)
        });
        ends(&mut program);
        writer.join().expect("a writer that ends");
    });
}

/// Nobody reads the answers any more, while the input stays open.
#[test]
fn an_output_that_is_closed_ends_the_program() {
    let mut program = start(Stdio::piped(), Stdio::piped());
    drop(program.stdout.take());
    ends_on_many_lines(program, true);
}

/// A device on which every write fails.
#[test]
fn writes_that_fail_end_the_program() {
    let full = File::create("/dev/full").expect("a device that is full");
    ends_on_many_lines(start(Stdio::piped(), full.into()), false);
}
