//! Covers: whether there is one, tried by the definition, the cover lengths, and the one that is answered.
use super::words::vector;

/// Whether the word has a cover: one or more intervals, none the whole word, with equal vectors, that together hold every position.
/// Equal vectors have equal lengths m, and an interval that holds position 1 begins there. So there is a cover of length m exactly
/// where all intervals with the vector of the first m letters hold every position.
fn has_cover(word: &[u8]) -> bool {
    let n = word.len();
    n >= 2 && (1..n).any(|m| windows_like_the_first_hold_all(word, m))
}

fn windows_like_the_first_hold_all(word: &[u8], m: usize) -> bool {
    let first = vector(&word[..m]);
    let mut held = vec![false; word.len()];
    for start in 0..=word.len() - m {
        if vector(&word[start..start + m]) == first {
            held[start..start + m].fill(true);
        }
    }
    held.into_iter().all(|position| position)
}

/// The cover lengths: m below n, 2m at least n, at which the first m and the last m letters have equal vectors.
pub fn cover_lengths(word: &[u8]) -> Vec<usize> {
    let n = word.len();
    let answers = |&m: &usize| 2 * m >= n && vector(&word[..m]) == vector(&word[n - m..]);
    (1..n).filter(answers).collect()
}

/// The smallest cover length, as request C-14 asks, or 0 where no set of intervals covers the word.
pub fn smallest_cover_length(word: &[u8]) -> usize {
    if !has_cover(word) {
        return 0;
    }
    let smallest = cover_lengths(word).into_iter().min();
    smallest.expect("a word with a cover has one of two intervals")
}
