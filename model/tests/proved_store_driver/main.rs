//! The store driver, a program, held against the model's: the lines that it prints for lines of
//! every sort, answers that come before it waits, and what it does when reading or writing fails.

mod failures;
mod lines;
mod program;
mod runs;
mod spoil;
mod talk;
