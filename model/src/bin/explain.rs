//! Says in plain sentences what frames, answers, log lines and verdicts say.

use koolvent_model::explain;
use std::io::Read;
use std::process::ExitCode;

const HELP: &str = "\
explain says in plain sentences what the lines of the store and of its judge say.

    explain session FRAMES ANSWERS   each frame, its answer and what they say, side by side
    explain log LOG                  what each line of a log says, and the verdict, with reasons
    explain log LOG VERDICT          and whether VERDICT is another
    explain --help                   this text

FRAMES, ANSWERS, LOG and VERDICT are files: what the store driver reads and prints, what the judge
reads and prints. One of them may be -, which is standard input. The verdict is that of an
independent judge, not of the proved one: hand over what that one printed to have them compared. A
client is document 01's desk, a partition its cabinet, an item its line of a sheet. Of a malformed
line it says what is wrong; columns count from 1. Installed, it is koolvent_explain.
";

fn main() -> ExitCode {
    let words: Vec<String> = std::env::args().skip(1).collect();
    let words: Vec<&str> = words.iter().map(String::as_str).collect();
    let said = match words[..] {
        ["--help"] => Ok(HELP.to_owned()),
        [_, "-", "-"] => return misused(),
        ["session", frames, answers] => session(frames, answers),
        ["log", log] => read(log).map(|log| explain::log(&log, None)),
        ["log", log, verdict] => judged(log, verdict),
        _ => return misused(),
    };
    match said {
        Ok(said) => {
            print!("{said}");
            ExitCode::SUCCESS
        }
        Err(wrong) => {
            eprintln!("explain: {wrong}");
            ExitCode::FAILURE
        }
    }
}

fn misused() -> ExitCode {
    eprint!("{HELP}");
    ExitCode::from(2)
}

fn session(frames: &str, answers: &str) -> Result<String, String> {
    Ok(explain::session(&read(frames)?, &read(answers)?))
}

fn judged(log: &str, verdict: &str) -> Result<String, String> {
    Ok(explain::log(&read(log)?, Some(&read(verdict)?)))
}

/// The bytes of the file, or of standard input.
fn read(name: &str) -> Result<Vec<u8>, String> {
    let mut bytes = Vec::new();
    let read = match name {
        "-" => std::io::stdin().read_to_end(&mut bytes).map(|_| bytes),
        _ => std::fs::read(name),
    };
    read.map_err(|error| format!("{name}: {error}"))
}
