//! Numbers and sets of items in words.

use crate::set::items;

/// So many of a thing.
pub fn count(number: u64, thing: &str) -> String {
    match number {
        1 => format!("1 {thing}"),
        _ => format!("{number} {thing}s"),
    }
}

/// The items of a set, three or more in a row as the first and the last.
pub fn items_of(set: u64) -> String {
    let mut parts = Vec::new();
    let mut rest: Vec<u64> = items(set).collect();
    while let Some(first) = rest.first().copied() {
        let in_a_row = (first..).zip(&rest).take_while(|(next, item)| next == *item);
        let length = match in_a_row.count() {
            2 => 1,
            length => length,
        };
        let last = rest[length - 1];
        rest.drain(..length);
        parts.push(match length {
            1 => first.to_string(),
            _ => format!("{first} to {last}"),
        });
    }
    match set.count_ones() {
        0 => "no item".to_owned(),
        1 => format!("item {}", parts[0]),
        _ => format!("items {}", listed(&parts)),
    }
}

/// The parts with commas, and an `and` before the last.
fn listed(parts: &[String]) -> String {
    match parts {
        [] => String::new(),
        [only] => only.clone(),
        [most @ .., last] => format!("{} and {last}", most.join(", ")),
    }
}

/// Each item with its value.
pub fn valued(set: u64, values: &[u32]) -> String {
    let parts: Vec<String> =
        items(set).zip(values).map(|(item, value)| format!("item {item}, value {value}")).collect();
    parts.join("; ")
}
