//! The model's judge held against document 01: hand-worked logs, frames byte for byte, and wrong
//! judges that are told apart.

mod counted;
mod examples;
mod frames;
mod wrong;
