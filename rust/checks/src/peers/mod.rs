//! The papers' algorithms in plain Rust, for windows the one of request C-13 and for square-free words the library's own search, to compare
//! times with. Each takes what the library's call takes, checks the word, pattern and record, or alphabet and length, and the slice as it
//! does, and gives the same numbers and output words.
mod full_periods;
mod periods;
mod runs;
mod select;
mod square_free;
mod squares;
mod tracker;
mod windows;

pub use full_periods::list_full_002;
pub use periods::{list_brute_force, list_counting_anew};
pub use runs::list_runs_003;
pub use select::list_select_based;
pub use square_free::{count_square_free_searching, list_square_free_searching};
pub use squares::list_sliding_windows;
pub use tracker::{add_in_place, OnLine};
pub use windows::{count_windows_sliding, list_windows_collected, list_windows_in_two_passes};

use crate::calls::Answer;
use luffbutton::{FIRST_LETTER, LETTERS, LONGEST};

/// The counts in a row: one for each letter, and behind them zeros that fill up whole vectors of 16 bytes. Without these zeros the lists of
/// periods and the adds take up to 1.6 times as long.
const WIDTH: usize = LETTERS.next_multiple_of(16);

/// The counts of a prefix or of a block, a byte each.
type Row = [u8; WIDTH];

/// The counts of no letters.
const NONE: Row = [0; WIDTH];

/// Row i has the counts of the first i letters.
type Counts = [Row; LONGEST + 1];

/// The place of a letter among the letters.
fn index(letter: u8) -> usize {
    usize::from(letter - FIRST_LETTER)
}

fn is_letter(byte: u8) -> bool {
    usize::from(byte.wrapping_sub(FIRST_LETTER)) < LETTERS
}

/// Refusals 1 and 2 of a word.
fn word_refusal(word: &[u8]) -> Option<Answer> {
    if word.len() > LONGEST {
        return Some(Answer::refused(1, 0));
    }
    let outside = word.iter().position(|&byte| !is_letter(byte))?;
    Some(Answer::refused(2, outside + 1))
}

/// Writes the words found to the first places, or refuses with 3.
fn write(found: &[u32], out: &mut [u32]) -> Answer {
    if found.len() > out.len() {
        return Answer::refused(3, found.len());
    }
    out[..found.len()].copy_from_slice(found);
    Answer {
        written: found.len(),
        ..Answer::default()
    }
}

/// The same with the number of trials, which a refusal does not have.
fn write_with_trials(found: &[u32], out: &mut [u32], trials: usize) -> Answer {
    let answer = write(found, out);
    match answer.number {
        0 => Answer { trials, ..answer },
        _ => answer,
    }
}

fn period_word(h: usize, p: usize) -> u32 {
    (1 << 28) | ((p << 14) | h) as u32
}

/// How many heads are in range for n with the period p.
fn heads(n: usize, p: usize) -> usize {
    p.min(n + 1 - p)
}

/// The number of pairs in range for n.
fn pairs_in_range(n: usize) -> usize {
    n.div_ceil(2) * (n / 2 + 1)
}

fn prefix_counts(word: &[u8]) -> Counts {
    let mut counts = [NONE; LONGEST + 1];
    let mut row = NONE;
    for (i, &letter) in word.iter().enumerate() {
        row[index(letter)] += 1;
        counts[i + 1] = row;
    }
    counts
}

/// The vector of the letters between two prefixes, by their counts.
#[inline]
fn between(shorter: &Row, longer: &Row) -> Row {
    let mut row = NONE;
    for c in 0..WIDTH {
        row[c] = longer[c].wrapping_sub(shorter[c]);
    }
    row
}

/// Whether the letters between two prefixes have another vector than the block. There is no exit inside, so that it becomes a few
/// vector instructions.
#[inline]
fn differs(shorter: &Row, longer: &Row, block: &Row) -> bool {
    let mut different = 0;
    for c in 0..WIDTH {
        different |= longer[c].wrapping_sub(shorter[c]) ^ block[c];
    }
    different != 0
}

/// Whether some count of the letters between two prefixes is above the block's. There is no exit inside, as above.
#[inline]
fn exceeds(shorter: &Row, longer: &Row, block: &Row) -> bool {
    let mut above = false;
    for c in 0..WIDTH {
        above |= longer[c].wrapping_sub(shorter[c]) > block[c];
    }
    above
}

/// Whether (h, p), in range for n, is an Abelian period of the first n letters. Head and tail are shorter than a block.
fn holds(counts: &Counts, n: usize, h: usize, p: usize) -> bool {
    let block = between(&counts[h], &counts[h + p]);
    if exceeds(&counts[0], &counts[h], &block) {
        return false;
    }
    let mut at = h + p;
    while at + p <= n {
        if differs(&counts[at], &counts[at + p], &block) {
            return false;
        }
        at += p;
    }
    !exceeds(&counts[at], &counts[n], &block)
}
