//! Abelian squares by sliding windows, in time n² (Cummings and Smyth, as document 003 cites them): for each half length two windows
//! side by side move over the word, and the number of letters in whose counts they differ is kept.
use super::{index, word_refusal, write};
use crate::calls::Answer;
use luffbutton::LETTERS;

/// All Abelian squares, by half length and then start.
pub fn list_sliding_windows(word: &[u8], out: &mut [u32]) -> Answer {
    if let Some(refusal) = word_refusal(word) {
        return refusal;
    }
    let n = word.len();
    let mut found = Vec::with_capacity(n * n / 4);
    for half in 1..=n / 2 {
        slide(word, half, |start| found.push(square_word(half, start + 1)));
    }
    write(&found, out)
}

fn square_word(half: usize, start: usize) -> u32 {
    (2 << 28) | ((half << 14) | start) as u32
}

/// By how much each letter's count in the left window exceeds that in the right one, and how many letters differ.
struct Difference {
    counts: [i16; LETTERS],
    differing: i16,
}

impl Difference {
    #[inline]
    fn change(&mut self, letter: u8, by: i16) {
        let count = &mut self.counts[index(letter)];
        self.differing -= i16::from(*count != 0);
        *count += by;
        self.differing += i16::from(*count != 0);
    }
}

/// Finds the squares of one half length: the number of letters before each, rising.
#[inline]
pub(super) fn slide(word: &[u8], half: usize, mut found: impl FnMut(usize)) {
    let mut difference = Difference {
        counts: [0; LETTERS],
        differing: 0,
    };
    let (left, right) = word[..2 * half].split_at(half);
    for (&a, &b) in left.iter().zip(right) {
        difference.change(a, 1);
        difference.change(b, -1);
    }
    for start in 0..=word.len() - 2 * half {
        if difference.differing == 0 {
            found(start);
        }
        if let Some(&entering) = word.get(start + 2 * half) {
            difference.change(word[start], -1);
            difference.change(word[start + half], 2);
            difference.change(entering, -1);
        }
    }
}
