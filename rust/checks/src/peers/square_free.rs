//! Words without an Abelian square (request C-20) by a search, depth first over their beginnings: a beginning with a square is not continued,
//! and a letter is tried only against the squares that end at it, by running counts. One search counts the words, and where they fit a second
//! one writes them, so that a refusal keeps the slice and nothing is allocated.
use crate::calls::Answer;
use luffbutton::{Alphabet, Length, LARGEST_ALPHABET, LONGEST_SQUARE_FREE};

/// How many bits of a total each letter has. The sum of two totals fits too: a count is 12 at most.
const BITS: u32 = 8;

/// The running counts of a word of n letters, as n + 1 totals: that of the beginning to which so many letters are still to join stands at that
/// place, and so the empty beginning at the end. A total has the counts of all letters side by side.
type Totals = [u32; LONGEST_SQUARE_FREE + 1];

/// All words in alphabetical order.
pub fn list_square_free_searching(alphabet: Alphabet, length: Length, out: &mut [u32]) -> Answer {
    let counted = count_square_free_searching(alphabet, length);
    if counted.number != 0 {
        return counted;
    }
    let needed = counted.written;
    if needed > out.len() {
        return Answer::refused(3, needed);
    }
    let n = length.0;
    let mut totals: Totals = [0; LONGEST_SQUARE_FREE + 1];
    write(alphabet.0 as u32, n, &mut totals[..=n], 0, 0, out);
    counted
}

/// How many words there are.
pub fn count_square_free_searching(alphabet: Alphabet, length: Length) -> Answer {
    let (k, n) = (alphabet.0, length.0);
    if !(1..=LARGEST_ALPHABET).contains(&k) {
        return Answer::refused(11, 0);
    }
    if n > LONGEST_SQUARE_FREE {
        return Answer::refused(12, 0);
    }
    let mut totals: Totals = [0; LONGEST_SQUARE_FREE + 1];
    Answer::of_words(count(k as u32, n, &mut totals[..=n]))
}

/// How many words go on from the beginning whose total stands at `left` by so many letters.
fn count(k: u32, left: usize, totals: &mut [u32]) -> usize {
    if left == 0 {
        return 1;
    }
    let next = left - 1;
    let mut words = 0;
    for letter in 0..k {
        totals[next] = totals[left] + (1 << (BITS * letter));
        if !ends_in_square(totals, next) {
            words += count(k, next, totals);
        }
    }
    words
}

/// Writes these words from the place `at` on, and returns the place behind them. The beginning is this number in base k.
fn write(
    k: u32,
    left: usize,
    totals: &mut [u32],
    number: u32,
    mut at: usize,
    out: &mut [u32],
) -> usize {
    if left == 0 {
        out[at] = (9 << 28) | number;
        return at + 1;
    }
    let next = left - 1;
    for letter in 0..k {
        totals[next] = totals[left] + (1 << (BITS * letter));
        if !ends_in_square(totals, next) {
            at = write(k, next, totals, number * k + letter, at, out);
        }
    }
    at
}

/// Whether the beginning whose total stands at `left` ends in a square: of some half length, the last half has the counts of the one before it.
#[inline]
fn ends_in_square(totals: &[u32], left: usize) -> bool {
    let mut half = 1;
    while left + 2 * half < totals.len() {
        if totals[left] + totals[left + 2 * half] == 2 * totals[left + half] {
            return true;
        }
        half += 1;
    }
    false
}
