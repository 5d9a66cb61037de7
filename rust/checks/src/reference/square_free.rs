//! Words without an Abelian square, in the words of request C-20: all words are made, by counting up, and each is looked at. There are k to
//! the power n, so that lengths above 8 take long.
use super::squares::squares;
use super::write;
use crate::calls::Answer;
use luffbutton::{Alphabet, Length, FIRST_LETTER};

/// The word of n letters that is this number in base k, with a as 0 and the first letter the highest digit.
fn word_of(number: usize, k: usize, n: usize) -> Vec<u8> {
    let digit = |place: usize| number / k.pow(place as u32) % k;
    let letters = (0..n).rev().map(|place| FIRST_LETTER + digit(place) as u8);
    letters.collect()
}

/// Every word of n letters over the first k, with its number, by rising number. Numbers rise as words do in alphabetical order, since all have
/// the same length.
fn all_words(k: usize, n: usize) -> impl Iterator<Item = (usize, Vec<u8>)> {
    (0..k.pow(n as u32)).map(move |number| (number, word_of(number, k, n)))
}

/// Whether the word has no Abelian square.
pub fn is_square_free(word: &[u8]) -> bool {
    squares(word).is_empty()
}

/// Those without an Abelian square.
pub fn square_free(k: usize, n: usize) -> Vec<(usize, Vec<u8>)> {
    let all = all_words(k, n);
    all.filter(|(_, word)| is_square_free(word)).collect()
}

/// The refusals but 3, in their order: "11 when k is outside 1 to 4; 12 when n is above 12, after it".
fn refusal(k: usize, n: usize) -> Option<Answer> {
    if !(1..=4).contains(&k) {
        return Some(Answer::refused(11, 0));
    }
    (n > 12).then(|| Answer::refused(12, 0))
}

/// The list of these words: 9 × 2^28 plus the number for each.
pub fn list(Alphabet(k): Alphabet, Length(n): Length, out: &mut [u32]) -> Answer {
    if let Some(refusal) = refusal(k, n) {
        return refusal;
    }
    let output = |(number, _): &(usize, Vec<u8>)| (9 * (1 << 28) + number) as u32;
    let words: Vec<u32> = square_free(k, n).iter().map(output).collect();
    write(&words, out)
}

/// The number of words that the list has.
pub fn count(Alphabet(k): Alphabet, Length(n): Length) -> Answer {
    let words = || Answer::of_words(square_free(k, n).len());
    refusal(k, n).unwrap_or_else(words)
}

#[cfg(test)]
mod tests {
    use super::*;

    #[test]
    fn words_by_their_numbers() {
        assert_eq!(word_of(0, 4, 0), b"");
        assert_eq!(word_of(0, 1, 3), b"aaa");
        assert_eq!(word_of(5, 2, 3), b"bab");
        assert_eq!(word_of(5, 3, 3), b"abc");
        assert_eq!(word_of(4 * 16 + 2, 4, 4), b"baac");
    }

    /// Each word comes before the next in alphabetical order, and all are of so many letters.
    #[test]
    fn words_in_alphabetical_order() {
        for (k, n, number) in [(1, 4, 1), (2, 5, 32), (3, 4, 81), (4, 3, 64), (4, 0, 1)] {
            let all: Vec<Vec<u8>> = all_words(k, n).map(|(_, word)| word).collect();
            assert_eq!(all.len(), number);
            assert!(all.iter().all(|word| word.len() == n));
            assert!(all.is_sorted_by(|one, next| one < next));
        }
    }

    /// Words without a square, and words with one of half length 1, 2 and 3: at the beginning, at the end, and as the whole word.
    #[test]
    fn words_without_squares_and_with_one() {
        for word in ["", "a", "aba", "abcab", "abacaba"] {
            assert!(is_square_free(word.as_bytes()), "{word}");
        }
        for word in ["aa", "aabc", "abcc", "abab", "cabab", "abcacb", "dabcacb"] {
            assert_eq!(squares(word.as_bytes()).len(), 1, "{word}");
            assert!(!is_square_free(word.as_bytes()), "{word}");
        }
    }
}
