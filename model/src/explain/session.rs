//! A session with the store driver: each frame, its answer and what they say, side by side.

use super::{answers, store};
use crate::frames::store::parse;

/// The columns of frames and of answers; what is longer pushes the sentence to the next line.
const FRAME: usize = 36;
const ANSWER: usize = 12;

/// The session whose frames and answers these are, line by line.
pub fn session(frames: &[u8], answers: &[u8]) -> String {
    let mut frames = lines(frames);
    let mut answers = lines(answers);
    let mut shown = String::new();
    loop {
        let (frame, answer) = (frames.next(), answers.next());
        if frame.is_none() && answer.is_none() {
            return shown;
        }
        shown += &row(
            &printable(frame.unwrap_or_default()),
            &printable(answer.unwrap_or_default()),
            &sentence(frame, answer),
        );
    }
}

fn lines(text: &[u8]) -> impl Iterator<Item = &[u8]> {
    text.split_inclusive(|byte| *byte == b'\n')
}

/// What a frame asks for and its answer says.
fn sentence(frame: Option<&[u8]>, answer: Option<&[u8]>) -> String {
    let Some(frame) = frame else {
        return "an answer to no frame".to_owned();
    };
    let call = parse(frame);
    let asked = match &call {
        Ok(call) => store::sentence(call),
        Err(wrong) => format!("malformed frame: {wrong}"),
    };
    let answered = match answer {
        Some(answer) => answers::sentence(call.as_ref().ok(), answer),
        None => "no answer".to_owned(),
    };
    format!("{asked}: {answered}")
}

fn row(frame: &str, answer: &str, sentence: &str) -> String {
    let before = format!("{frame:<FRAME$}  {answer:<ANSWER$}");
    let fits = before.len() == FRAME + 2 + ANSWER;
    let gap = match fits {
        true => "  ".to_owned(),
        false => format!("\n{:width$}", "", width = FRAME + 2 + ANSWER + 2),
    };
    format!("{before}{gap}{sentence}\n")
}

/// The line without its 0a, other bytes than characters written out.
fn printable(line: &[u8]) -> String {
    let line = line.strip_suffix(b"\n").unwrap_or(line);
    line.escape_ascii().to_string()
}
