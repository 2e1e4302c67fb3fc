//! The tables as words of a block.

mod clearing;
mod fast_read;
mod hand_over;
mod laws;
mod mixed;
mod session;

/// The words are those before them but for these rows, each with the place of its first word.
fn assert_words(words: &[u64], before: &[u64], rows: &[(usize, &[u64])]) {
    let mut expected = before.to_vec();
    for (place, row) in rows {
        expected[*place..][..row.len()].copy_from_slice(row);
    }
    assert_eq!(words.len(), expected.len());
    let differ: Vec<(usize, u64, u64)> = (0..words.len())
        .filter(|place| words[*place] != expected[*place])
        .map(|place| (place, words[place], expected[place]))
        .collect();
    assert_eq!(differ, [], "place, word, worked out by hand");
}
