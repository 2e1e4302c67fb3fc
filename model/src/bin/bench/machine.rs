//! The class of machine that was measured on.

use std::fs::read_to_string;
use std::thread::available_parallelism;

/// Its processor and how many of its cores are at hand.
pub fn class() -> String {
    let told = read_to_string("/proc/cpuinfo").unwrap_or_default();
    let names = told.lines().filter(|line| line.starts_with("model name"));
    let name = names.filter_map(|line| line.split(": ").nth(1)).next();
    let cores = available_parallelism().map_or(1, usize::from);
    format!("{}, {cores} cores", name.unwrap_or("unnamed processor"))
}
