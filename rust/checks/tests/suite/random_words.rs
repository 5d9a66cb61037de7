//! Random words, and all short ones: every call of the library against the second implementation.
use crate::support::{alphabets, assert_same_fields, compare_word, lent, seeded, shown};
use checks::calls::Calls;
use checks::generator::{alternating, fibonacci, Generator};
use checks::library::Library;
use checks::reference::{is_period, Reference};
use luffbutton::{Fields, FIRST_LETTER, LETTERS, LONGEST};

/// The longest word of which many are tried.
const MEDIUM: usize = 60;

/// Tries words of every length to 60 over every number of letters, so many of each, and returns how many that are.
fn words_of_all_lengths(
    seed: u64,
    times: usize,
    make: impl Fn(&mut Generator, usize, usize) -> Vec<u8>,
) -> usize {
    let mut generator = seeded(seed);
    let mut tried = 0;
    for n in 1..=MEDIUM {
        for k in alphabets() {
            for _ in 0..times {
                let word = make(&mut generator, n, k);
                compare_word(&word, &mut generator);
                tried += 1;
            }
        }
    }
    tried
}

#[test]
fn uniform_words() {
    let tried = words_of_all_lengths(1, 6, |generator, n, k| generator.uniform(n, k));
    assert_eq!(tried, 6 * MEDIUM * LETTERS);
}

/// Shuffled blocks repeated, with head and tail: the word has the Abelian period that it is made of, among others.
#[test]
fn cyclic_words() {
    let tried = words_of_all_lengths(2, 10, |generator, n, k| {
        let (word, pair) = generator.cyclic(n, k);
        let _shown = shown(&word);
        assert!(
            is_period(&word, pair),
            "{pair:?} is no period of the word made of it"
        );
        let answer = Library.judge(&word, pair.head, pair.period);
        assert_eq!(
            answer.yes, 1,
            "{pair:?} is no period of the word made of it"
        );
        word
    });
    assert_eq!(tried, 10 * MEDIUM * LETTERS);
}

/// Cyclic words with one letter changed.
#[test]
fn near_misses() {
    let tried = words_of_all_lengths(3, 10, |generator, n, k| generator.near_miss(n, k));
    assert_eq!(tried, 10 * MEDIUM * LETTERS);
}

#[test]
fn long_words() {
    let mut generator = seeded(4);
    for n in [61, 97, 120, 121, 122, 180, 239, 240, 240] {
        for k in [1, 2, 3, 5, LETTERS] {
            compare_word(&generator.uniform(n, k), &mut generator);
            let (cyclic, _) = generator.cyclic(n, k);
            compare_word(&cyclic, &mut generator);
            let near = generator.near_miss(n, k);
            compare_word(&near, &mut generator);
        }
    }
}

#[test]
fn words_with_many_cycles() {
    let mut generator = seeded(5);
    for n in [0, 1, 2, 3, 59, 60, 120, 121, 233, 239, 240] {
        compare_word(&vec![FIRST_LETTER; n], &mut generator);
        compare_word(&alternating(n), &mut generator);
        compare_word(&fibonacci(n), &mut generator);
    }
}

/// Every word of n letters over the first k.
fn all_words(n: usize, k: usize) -> impl Iterator<Item = Vec<u8>> {
    let digit = move |number: usize, place: usize| number / k.pow(place as u32) % k;
    let letter = move |number, place| FIRST_LETTER + digit(number, place) as u8;
    (0..k.pow(n as u32)).map(move |number| (0..n).map(|place| letter(number, place)).collect())
}

#[test]
fn all_short_words() {
    let mut generator = seeded(6);
    let mut tried = 0;
    for (k, longest) in [(2, 11), (3, 7), (4, 5)] {
        for n in 0..=longest {
            for word in all_words(n, k) {
                compare_word(&word, &mut generator);
                tried += 1;
            }
        }
    }
    assert_eq!(tried, 4095 + 3280 + 1365);
}

/// A tracker to which a word's letters are added, one by one and by a replay: the board has its ended lengths.
#[test]
fn boards_of_random_words() {
    let mut generator = seeded(7);
    for n in (1..=MEDIUM).chain([121, LONGEST]) {
        for k in [1, 2, 3, 5, LETTERS] {
            let (cyclic, _) = generator.cyclic(n, k);
            let near = generator.near_miss(n, k);
            for word in [cyclic, near] {
                compare_board(&word);
            }
        }
    }
}

fn compare_board(word: &[u8]) {
    let _shown = shown(word);
    let (mut due, mut replayed, mut tracker) = (Fields::zero(), Fields::zero(), Fields::zero());
    let listed_due = lent(100, |out| Reference.replay(&mut due, word, out));
    let listed = lent(100, |out| Library.replay(&mut replayed, word, out));
    assert_eq!(listed, listed_due);
    assert_same_fields(&replayed, &due);
    for &letter in word {
        Library.add(&mut tracker, letter);
    }
    assert_same_fields(&tracker, &due);
}
