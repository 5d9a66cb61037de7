//! Letters, counts and count vectors.
use luffbutton::{FIRST_LETTER, LETTERS};

/// The number of each letter in a stretch, in letter order.
pub type Vector = [usize; LETTERS];

/// The letters in their order.
pub fn letters() -> impl Iterator<Item = u8> {
    (FIRST_LETTER..).take(LETTERS)
}

pub fn is_letter(byte: u8) -> bool {
    letters().any(|letter| letter == byte)
}

/// Whether a word has two or more letters and all are equal.
pub fn is_one_letter(word: &[u8]) -> bool {
    word.len() >= 2 && word.windows(2).all(|two| two[0] == two[1])
}

/// How often the letter stands in the stretch.
pub fn count(letter: u8, stretch: &[u8]) -> usize {
    stretch.iter().filter(|&&byte| byte == letter).count()
}

/// The count vector of a stretch of letters, counted anew.
pub fn vector(stretch: &[u8]) -> Vector {
    let mut counts = [0; LETTERS];
    for byte in stretch {
        counts[usize::from(byte - FIRST_LETTER)] += 1;
    }
    counts
}

/// Whether u is contained in v: no count of u exceeds that of v, and u's sum is smaller.
pub fn contained(u: &Vector, v: &Vector) -> bool {
    let none_exceeds = u.iter().zip(v).all(|(a, b)| a <= b);
    none_exceeds && u.iter().sum::<usize>() < v.iter().sum::<usize>()
}
