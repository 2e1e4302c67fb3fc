//! The program.

use crate::session::SESSION;
use std::io::Write;
use std::path::PathBuf;
use std::process::{Command, Output, Stdio};

fn explain(words: &[&str]) -> Output {
    Command::new(env!("CARGO_BIN_EXE_explain")).args(words).output().expect("the program")
}

/// A file for one test.
fn file(name: &str, text: &str) -> String {
    let path = PathBuf::from(env!("CARGO_TARGET_TMPDIR")).join(name);
    std::fs::write(&path, text).expect("a file");
    path.to_str().expect("a name").to_owned()
}

#[test]
fn a_session() {
    let frames: String = SESSION.iter().map(|(frame, _, _)| format!("{frame}\n")).collect();
    let answers: String = SESSION.iter().map(|(_, answer, _)| format!("{answer}\n")).collect();
    let frames = file("session_frames", &frames);
    let output = explain(&["session", &frames, &file("session_answers", &answers)]);
    assert!(output.status.success());
    let said = String::from_utf8(output.stdout).expect("text");
    for (_, _, sentence) in SESSION {
        assert!(said.contains(sentence), "{sentence}");
    }
}

#[test]
fn a_log_with_and_without_its_verdict() {
    let log = file("log", "21020000000000000001000000000000000000\n");
    let line = "log line 1: client 2 shows item 0 initial\n";
    let verdict = "verdict: clean: no read of the log is at fault\n";
    let handed_over = file("verdict", "00000000\n");
    for words in [&["log", &log][..], &["log", &log, &handed_over]] {
        let output = explain(words);
        assert_eq!(String::from_utf8_lossy(&output.stdout), format!("{line}{verdict}"));
    }
}

#[test]
fn a_log_on_standard_input() {
    let mut program = Command::new(env!("CARGO_BIN_EXE_explain"))
        .args(["log", "-"])
        .stdin(Stdio::piped())
        .stdout(Stdio::piped())
        .spawn()
        .expect("the program");
    let mut to = program.stdin.take().expect("piped");
    to.write_all(b"21020000000000000001000000000000000000\n").expect("a program that reads");
    drop(to);
    let output = program.wait_with_output().expect("the program's output");
    let said = "log line 1: client 2 shows item 0 initial\n\
                verdict: clean: no read of the log is at fault\n";
    assert_eq!(String::from_utf8_lossy(&output.stdout), said);
}

#[test]
fn the_help_names_both_forms() {
    let output = explain(&["--help"]);
    assert!(output.status.success());
    let help = String::from_utf8(output.stdout).expect("text");
    assert!(help.contains("explain session FRAMES ANSWERS"));
    assert!(help.contains("explain log LOG VERDICT"));
}

#[test]
fn other_words_are_2_and_a_missing_file_1() {
    assert_eq!(explain(&[]).status.code(), Some(2));
    assert_eq!(explain(&["session", "one"]).status.code(), Some(2));
    assert_eq!(explain(&["session", "-", "-"]).status.code(), Some(2));
    let output = explain(&["log", "/no such file"]);
    assert_eq!(output.status.code(), Some(1));
    assert!(output.stdout.is_empty());
}
