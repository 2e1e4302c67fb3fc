//! Frames, answers, log lines and verdicts in plain sentences; of a malformed line, what is wrong
//! with it.
//!
//! Nothing of a session is run again; a log is judged.

mod answers;
mod log;
mod refusals;
mod session;
mod store;
mod words;

pub use log::log;
pub use session::session;
