//! Document 004's brute force (Figure 1), with a table of prefix counts and with each block counted anew. The loop over periods is the
//! outer one, so that the pairs come in document 01's order.
use super::{
    differs, exceeds, heads, holds, index, pairs_in_range, period_word, prefix_counts, word_refusal,
};
use super::{write_with_trials, Row, NONE};
use crate::calls::Answer;

/// All Abelian periods: every pair in range is tested by differences of prefix counts.
pub fn list_brute_force(word: &[u8], out: &mut [u32]) -> Answer {
    if let Some(refusal) = word_refusal(word) {
        return refusal;
    }
    let n = word.len();
    let counts = prefix_counts(word);
    let mut found = Vec::with_capacity(pairs_in_range(n));
    for p in 1..=n {
        for h in 0..heads(n, p) {
            if holds(&counts, n, h, p) {
                found.push(period_word(h, p));
            }
        }
    }
    write_with_trials(&found, out, pairs_in_range(n))
}

/// All Abelian periods: every pair in range is tested by counting the letters of its blocks.
pub fn list_counting_anew(word: &[u8], out: &mut [u32]) -> Answer {
    if let Some(refusal) = word_refusal(word) {
        return refusal;
    }
    let n = word.len();
    let mut found = Vec::with_capacity(pairs_in_range(n));
    for p in 1..=n {
        for h in 0..heads(n, p) {
            if holds_counted(word, h, p) {
                found.push(period_word(h, p));
            }
        }
    }
    write_with_trials(&found, out, pairs_in_range(n))
}

fn count(stretch: &[u8]) -> Row {
    let mut row = NONE;
    for &letter in stretch {
        row[index(letter)] += 1;
    }
    row
}

fn holds_counted(word: &[u8], h: usize, p: usize) -> bool {
    let (head, rest) = word.split_at(h);
    let block = count(&rest[..p]);
    if exceeds(&NONE, &count(head), &block) {
        return false;
    }
    let mut others = rest[p..].chunks_exact(p);
    others.all(|other| !differs(&NONE, &count(other), &block))
        && !exceeds(&NONE, &count(others.remainder()), &block)
}
