//! Abelian periods by Definition 1 of documents 002 and 004: the test, the judge, the list and the two numbers of trials.
use super::words::{contained, count, letters, vector, Vector};
use luffbutton::{Head, Period};
use std::slice::ChunksExact;

/// A head and a period.
#[derive(Clone, Copy, Debug, PartialEq, Eq)]
pub struct Pair {
    pub head: Head,
    pub period: Period,
}

/// Whether the pair is in range for n: p is at least 1, h is below p, and both fit into n.
pub fn in_range(n: usize, pair: Pair) -> bool {
    let (h, p) = (pair.head.0, pair.period.0);
    p >= 1 && h < p && h.checked_add(p).is_some_and(|both| both <= n)
}

/// The pairs in range for n, by p and then h.
pub fn pairs(n: usize) -> Vec<Pair> {
    let mut found = Vec::new();
    for period in (1..=n).map(Period) {
        for head in (0..period.0).map(Head) {
            if in_range(n, Pair { head, period }) {
                found.push(Pair { head, period });
            }
        }
    }
    found
}

/// What a pair in range divides the word into: the head, the whole blocks, and the tail that is left.
fn parts(word: &[u8], pair: Pair) -> (&[u8], ChunksExact<'_, u8>, &[u8]) {
    let (head, rest) = word.split_at(pair.head.0);
    let blocks = rest.chunks_exact(pair.period.0);
    let tail = blocks.remainder();
    (head, blocks, tail)
}

/// The vector of block 1.
fn first_block(word: &[u8], pair: Pair) -> Vector {
    vector(&word[pair.head.0..][..pair.period.0])
}

/// Whether the pair is an Abelian period of the word: in range, the blocks' vectors equal, head and tail contained in a block.
pub fn is_period(word: &[u8], pair: Pair) -> bool {
    if !in_range(word.len(), pair) {
        return false;
    }
    let (head, mut blocks, tail) = parts(word, pair);
    let first = first_block(word, pair);
    contained(&vector(head), &first)
        && blocks.all(|block| vector(block) == first)
        && contained(&vector(tail), &first)
}

/// All Abelian periods of the word, by p and then h.
pub fn periods(word: &[u8]) -> Vec<Pair> {
    let mut found = pairs(word.len());
    found.retain(|&pair| is_period(word, pair));
    found
}

/// The first block, and in it the first letter, that breaks the rule against block 1: a whole block by any other count, head and
/// tail by a larger one. The head is block 0, and the tail comes behind the last whole block.
pub fn first_failure(word: &[u8], pair: Pair) -> Option<(usize, u8)> {
    let (head, blocks, tail) = parts(word, pair);
    let first = first_block(word, pair);
    let mut all = vec![(head, false)];
    all.extend(blocks.map(|block| (block, true)));
    all.push((tail, false));
    for (number, (part, whole)) in all.into_iter().enumerate() {
        for (letter, (here, due)) in letters().zip(vector(part).into_iter().zip(first)) {
            if here > due || (whole && here != due) {
                return Some((number, letter));
            }
        }
    }
    None
}

/// The plain lister's trials: the pairs in range.
pub fn plain_trials(word: &[u8]) -> usize {
    pairs(word.len()).len()
}

/// The skipping lister's trials: the pairs in range whose head is not ruled out and whose period is at least L(h).
pub fn skipping_trials(word: &[u8]) -> usize {
    let n = word.len();
    let lowest: Vec<Option<usize>> = (0..n)
        .map(|h| (!ruled_out(word, h)).then(|| lowest_period(word, h)))
        .collect();
    let tried = |pair: &Pair| lowest[pair.head.0].is_some_and(|least| pair.period.0 >= least);
    pairs(n).iter().filter(|pair| tried(pair)).count()
}

/// Whether some letter's count in the first h letters, doubled, exceeds its count in the word.
fn ruled_out(word: &[u8], h: usize) -> bool {
    letters().any(|letter| 2 * count(letter, &word[..h]) > count(letter, word))
}

/// L(h) for a head that is not ruled out.
fn lowest_period(word: &[u8], h: usize) -> usize {
    let mut lowest = (h + 1).max((greatest_gap(word, h) + 1) / 2);
    for letter in letters() {
        let in_head = count(letter, &word[..h]);
        if in_head > 0 {
            let position = positions(word, letter)[2 * in_head - 1];
            lowest = lowest.max(position - h);
        }
    }
    lowest
}

/// The positions of a letter, counted from 1.
fn positions(word: &[u8], letter: u8) -> Vec<usize> {
    (1..=word.len())
        .filter(|&position| word[position - 1] == letter)
        .collect()
}

/// G: the greatest distance between two neighbouring occurrences of one letter, both after position h, or 0.
fn greatest_gap(word: &[u8], h: usize) -> usize {
    let mut greatest = 0;
    for letter in letters() {
        let mut after = positions(word, letter);
        after.retain(|&position| position > h);
        for neighbours in after.windows(2) {
            greatest = greatest.max(neighbours[1] - neighbours[0]);
        }
    }
    greatest
}

/// The ended length of a pair: the smallest m from h + p to n at which it is no Abelian period of the first m letters, or 0.
pub fn ended_length(word: &[u8], pair: Pair) -> usize {
    (pair.head.0 + pair.period.0..=word.len())
        .find(|&m| !is_period(&word[..m], pair))
        .unwrap_or(0)
}

#[cfg(test)]
mod tests {
    use super::*;
    use luffbutton::{BOARD, LONGEST};

    #[test]
    fn pairs_in_range_are_as_many_as_document_01_says() {
        for n in 0..=LONGEST {
            assert_eq!(pairs(n).len(), (n + 1) / 2 * ((n + 2) / 2), "n = {n}");
        }
        assert_eq!(pairs(LONGEST).len(), BOARD);
    }

    #[test]
    fn pairs_rise_by_period_and_then_head() {
        let key = |pair: &Pair| (pair.period, pair.head);
        let rising = |both: &[Pair]| key(&both[0]) < key(&both[1]);
        assert!(pairs(LONGEST).windows(2).all(rising));
    }
}
