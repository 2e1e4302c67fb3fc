//! Plain sentences for frames, answers, log lines and verdicts. Those expected are written by hand
//! from document 01.

mod frames;
mod log_lines;
mod malformed;
mod program;
mod session;
mod verdicts;
