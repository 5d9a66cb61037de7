//! Anagram windows, in the words of request C-13.
use super::words::vector;
use super::{letters_refusal, word_refusal, write};
use crate::calls::Answer;
use luffbutton::LONGEST_RECORD;

/// Every start in the record, counted from 1 and rising, at which a window as long as the pattern has the pattern's vector. Each window is
/// counted anew. The pattern has a letter at least.
pub fn windows(pattern: &[u8], record: &[u8]) -> Vec<usize> {
    let due = vector(pattern);
    let all = (1..).zip(record.windows(pattern.len()));
    let found = all.filter(|(_, window)| vector(window) == due);
    found.map(|(start, _)| start).collect()
}

/// The refusals but 3, in their order: the pattern is checked as a word, then whether it is empty, then the record's length and last the
/// record's letters.
fn refusal(pattern: &[u8], record: &[u8]) -> Option<Answer> {
    if let Some(refusal) = word_refusal(pattern) {
        return Some(refusal);
    }
    if pattern.is_empty() {
        return Some(Answer::refused(8, 0));
    }
    if record.len() > LONGEST_RECORD {
        return Some(Answer::refused(9, 0));
    }
    letters_refusal(record)
}

/// The list of the windows: 7 × 2^28 + start for each.
pub fn list(pattern: &[u8], record: &[u8], out: &mut [u32]) -> Answer {
    if let Some(refusal) = refusal(pattern, record) {
        return refusal;
    }
    let word_of = |start: usize| (7 * (1 << 28) + start) as u32;
    let words: Vec<u32> = windows(pattern, record).into_iter().map(word_of).collect();
    write(&words, out)
}

/// The number of words that the list has.
pub fn count(pattern: &[u8], record: &[u8]) -> Answer {
    let windows = || Answer::of_words(windows(pattern, record).len());
    refusal(pattern, record).unwrap_or_else(windows)
}

#[cfg(test)]
mod tests {
    use super::*;

    /// The letters of each window, sorted, are the pattern's sorted, and those of no other stretch of that length are.
    #[test]
    fn windows_by_sorting() {
        let sorted = |letters: &[u8]| {
            let mut letters = letters.to_vec();
            letters.sort_unstable();
            letters
        };
        let record = b"abbaabcabbacaabbbaccab";
        for m in 1..=record.len() {
            for from in 0..=record.len() - m {
                let pattern = &record[from..from + m];
                let due = (0..=record.len() - m)
                    .filter(|&at| sorted(&record[at..at + m]) == sorted(pattern))
                    .map(|at| at + 1);
                assert!(due.eq(windows(pattern, record)));
            }
        }
    }

    #[test]
    fn windows_of_ab() {
        assert_eq!(windows(b"ab", b"abbaab"), [1, 3, 5]);
        assert_eq!(windows(b"abb", b"ab"), []);
        assert_eq!(windows(b"a", b""), []);
    }
}
