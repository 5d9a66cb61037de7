//! Words without an Abelian square (request C-20): marked rows, refusals in their order, the outside vectors, how many words there are of each
//! length, every alphabet and length on the library and on the second implementation with slices around the number of places needed, and the
//! lists of the greater lengths, letter by letter. The count beside the list is also in `counts`.
use crate::records::read_square_free;
use crate::support::{assert_lists, filled, lent, marks, shown_square_free, BOTH};
use checks::calls::{Answer, Calls};
use checks::library::Library;
use checks::reference::{is_square_free, Reference};
use luffbutton::{square_free_words, Alphabet, Length, FIRST_LETTER, LARGEST_ALPHABET};
use luffbutton::{LONGEST_SQUARE_FREE, MOST_SQUARE_FREE};

/// How many words there are over 1, 2, 3 and 4 letters, of 0 to 12 letters each.
const NUMBERS: [[usize; 13]; 4] = [
    [1, 1, 0, 0, 0, 0, 0, 0, 0, 0, 0, 0, 0],
    [1, 2, 2, 2, 0, 0, 0, 0, 0, 0, 0, 0, 0],
    [1, 3, 6, 12, 18, 30, 30, 18, 0, 0, 0, 0, 0],
    [
        1, 4, 12, 36, 96, 264, 648, 1584, 3576, 7872, 15360, 29184, 51120,
    ],
];

/// Every alphabet and every length that is not refused, with the number of words.
fn all_sizes() -> impl Iterator<Item = (Alphabet, Length, usize)> {
    let lengths = |(k, numbers): (usize, [usize; 13])| {
        let numbers = numbers.into_iter().enumerate();
        numbers.map(move |(n, number)| (Alphabet(k), Length(n), number))
    };
    (1..).zip(NUMBERS).flat_map(lengths)
}

/// Alphabets that are refused with 11, and lengths that are refused with 12.
const BAD_ALPHABETS: [usize; 7] = [0, 5, 6, 26, 256 + 4, (1 << 32) + 4, usize::MAX];
const BAD_LENGTHS: [usize; 6] = [13, 14, 240, 256 + 12, (1 << 32) + 3, usize::MAX];

/// The output words with these numbers, as the request writes them.
fn words(numbers: &[usize]) -> Vec<u32> {
    let word = |&number: &usize| (9 * (1 << 28) + number) as u32;
    numbers.iter().map(word).collect()
}

/// Asserts that the list has these numbers, with as many places as they need and with more, that with one place too few it is refused and the
/// slice is as it came, and that the count is theirs.
fn assert_numbers(calls: &dyn Calls, alphabet: Alphabet, length: Length, numbers: &[usize]) {
    let due = Answer::of_words(numbers.len());
    let list = |out: &mut [u32]| calls.list_square_free(alphabet, length, out);
    assert_lists(list, &words(numbers), due, "list_square_free");
    let counted = calls.count_square_free(alphabet, length);
    assert_eq!(counted, due, "count_square_free");
}

/// Asserts that list and count give the refusal, with every other number 0, and that slices are as they came.
fn assert_refused(k: usize, n: usize, number: usize) {
    let (alphabet, length) = (Alphabet(k), Length(n));
    let _shown = shown_square_free(alphabet, length);
    let due = Answer::refused(number, 0);
    for calls in BOTH {
        for places in [0, 1, 300] {
            let answered = lent(places, |out| calls.list_square_free(alphabet, length, out));
            assert_eq!(answered, (due, marks(places)), "{places} places");
        }
        assert_eq!(calls.count_square_free(alphabet, length), due);
    }
}

/// The words that the library lists.
fn listed(alphabet: Alphabet, length: Length) -> Vec<u32> {
    let needed = Library.count_square_free(alphabet, length).written;
    let (answer, out) = lent(needed, |out| {
        Library.list_square_free(alphabet, length, out)
    });
    assert_eq!(answer, Answer::of_words(needed));
    out
}

/// The letters of these words. None is left out: the reader passes over a word with a square, which no list may have.
fn letters(alphabet: Alphabet, length: Length) -> Vec<Vec<u8>> {
    let words = listed(alphabet, length);
    let letters = square_free_words(&words, alphabet, length);
    let letters: Vec<Vec<u8>> = letters.map(|word| word.to_vec()).collect();
    assert_eq!(letters.len(), words.len(), "a word was passed over");
    letters
}

#[test]
fn marked_rows() {
    let table: [(usize, usize, &[usize]); 10] = [
        (1, 0, &[0]),
        (1, 1, &[0]),
        (1, 2, &[]),
        (2, 1, &[0, 1]),
        (2, 2, &[1, 2]),
        (2, 3, &[2, 5]),
        (2, 4, &[]),
        (3, 0, &[0]),
        (3, 3, &[3, 5, 6, 7, 10, 11, 15, 16, 19, 20, 21, 23]),
        (4, 2, &[1, 2, 3, 4, 6, 7, 8, 9, 11, 12, 13, 14]),
    ];
    for (k, n, numbers) in table {
        let (alphabet, length) = (Alphabet(k), Length(n));
        let _shown = shown_square_free(alphabet, length);
        for calls in BOTH {
            assert_numbers(calls, alphabet, length, numbers);
        }
    }
}

/// The output words of aba and bab, in numbers.
#[test]
fn the_words_of_two_letters_and_length_3() {
    for calls in BOTH {
        let (answer, out) = lent(4, |out| calls.list_square_free(Alphabet(2), Length(3), out));
        assert_eq!(answer, Answer::of_words(2));
        assert_eq!(out, filled(&[2415919106, 2415919109], 4));
    }
}

/// "Length 0 gives the empty word, as 9 × 2^28", over every alphabet.
#[test]
fn the_empty_word() {
    for k in 1..=LARGEST_ALPHABET {
        for calls in BOTH {
            let (answer, out) = lent(3, |out| calls.list_square_free(Alphabet(k), Length(0), out));
            assert_eq!(answer, Answer::of_words(1));
            assert_eq!(out, filled(&[2415919104], 3));
        }
    }
}

#[test]
fn the_file_has_its_records() {
    let records = read_square_free();
    let sizes = records
        .iter()
        .map(|record| (record.alphabet, record.length));
    let all = (1..=4).flat_map(|k| (0..=7).map(move |n| (Alphabet(k), Length(n))));
    assert!(sizes.eq(all));
    let numbers: usize = records.iter().map(|record| record.numbers.len()).sum();
    assert_eq!(numbers, 2772);
}

fn vectors_agree(calls: &dyn Calls) {
    for record in read_square_free() {
        let _shown = shown_square_free(record.alphabet, record.length);
        assert_numbers(calls, record.alphabet, record.length, &record.numbers);
    }
}

#[test]
fn vectors_on_the_library() {
    vectors_agree(&Library);
}

#[test]
fn vectors_on_the_reference() {
    vectors_agree(&Reference);
}

/// The number of words of each alphabet and length, by the count and by a list into so many places; into one place less it is refused.
#[test]
fn numbers_of_words() {
    for (alphabet, length, number) in all_sizes() {
        let _shown = shown_square_free(alphabet, length);
        let list = |out: &mut [u32]| Library.list_square_free(alphabet, length, out);
        let due = Answer::of_words(number);
        assert_eq!(Library.count_square_free(alphabet, length), due);
        assert_eq!(lent(number, list).0, due);
        if number > 0 {
            let short = (Answer::refused(3, number), marks(number - 1));
            assert!(lent(number - 1, list) == short);
        }
    }
}

/// No list is longer than that of 4 letters and length 12, which fits so many places exactly.
#[test]
fn the_longest_list() {
    let most = all_sizes().map(|(_, _, number)| number).max();
    assert_eq!((most, MOST_SQUARE_FREE), (Some(51120), 51120));
    let (alphabet, length) = (Alphabet(LARGEST_ALPHABET), Length(LONGEST_SQUARE_FREE));
    let list = |places| {
        lent(places, |out| {
            Library.list_square_free(alphabet, length, out)
        })
    };
    let (_, words) = list(51120);
    for places in [51120, 51121, 60000] {
        let due = (Answer::of_words(51120), filled(&words, places));
        assert!(list(places) == due, "{places} places");
    }
    for places in [0, 1, 25000, 51118, 51119] {
        let due = (Answer::refused(3, 51120), marks(places));
        assert!(list(places) == due, "{places} places");
    }
}

/// The words of n + 1 letters that go on from words of n letters without a square, in alphabetical order, and have none themselves.
fn with_a_letter_more(words: &[Vec<u8>], alphabet: Alphabet) -> Vec<Vec<u8>> {
    let mut longer = Vec::new();
    for word in words {
        let letters = (FIRST_LETTER..).take(alphabet.0);
        longer.extend(letters.map(|letter| [&word[..], &[letter]].concat()));
    }
    longer.retain(|word| is_square_free(word));
    longer
}

/// A word without a square has none in its first letters either. So the list of each length has the words of the one before it with a letter
/// more, as far as these have no square by the second implementation's test, up to length 12.
#[test]
fn each_list_follows_from_the_one_before() {
    for k in 1..=LARGEST_ALPHABET {
        let alphabet = Alphabet(k);
        let mut due = vec![Vec::new()];
        for n in 0..=LONGEST_SQUARE_FREE {
            let _shown = shown_square_free(alphabet, Length(n));
            assert!(letters(alphabet, Length(n)) == due);
            due = with_a_letter_more(&due, alphabet);
        }
    }
}

/// Every alphabet from 0 to 6 and every length from 0 to 7, with slices around the number of places needed: the answers and the slices are
/// the second implementation's.
#[test]
fn small_alphabets_and_lengths() {
    let (mut accepted, mut refused) = (0, 0);
    for k in 0..=6 {
        for n in 0..=7 {
            let (alphabet, length) = (Alphabet(k), Length(n));
            let _shown = shown_square_free(alphabet, length);
            let counted = Reference.count_square_free(alphabet, length);
            assert_eq!(Library.count_square_free(alphabet, length), counted);
            let needed = counted.written;
            for places in [
                0,
                needed / 2,
                needed.saturating_sub(1),
                needed,
                needed + 1,
                needed + 9,
            ] {
                let list = |calls: &dyn Calls| {
                    lent(places, |out| calls.list_square_free(alphabet, length, out))
                };
                let answered = list(&Library);
                assert_eq!(answered, list(&Reference), "{places} places");
                match answered.0.number {
                    0 => accepted += 1,
                    _ => refused += 1,
                }
            }
        }
    }
    assert_eq!((accepted, refused), (126, 210));
}

/// Slices of every length from 0 to three more than needed.
#[test]
fn slices_of_every_length() {
    for (k, n) in [(1, 1), (1, 2), (2, 3), (3, 3), (3, 7), (4, 3)] {
        let (alphabet, length) = (Alphabet(k), Length(n));
        let _shown = shown_square_free(alphabet, length);
        let needed = NUMBERS[k - 1][n];
        for places in 0..=needed + 3 {
            let list = |calls: &dyn Calls| {
                lent(places, |out| calls.list_square_free(alphabet, length, out))
            };
            let answered = list(&Library);
            assert_eq!(answered, list(&Reference), "{places} places");
            assert_eq!(answered.0.number == 3, places < needed, "{places} places");
        }
    }
}

/// 11 comes before 12, whatever the length, and both before 3.
#[test]
fn refusals_in_their_order() {
    for k in BAD_ALPHABETS {
        for n in [0, 1, 7, LONGEST_SQUARE_FREE]
            .into_iter()
            .chain(BAD_LENGTHS)
        {
            assert_refused(k, n, 11);
        }
    }
    for k in 1..=LARGEST_ALPHABET {
        for n in BAD_LENGTHS {
            assert_refused(k, n, 12);
        }
    }
    for calls in BOTH {
        let list = |k, n| calls.list_square_free(Alphabet(k), Length(n), &mut []);
        assert_eq!(list(4, 2), Answer::refused(3, 12));
        assert_eq!(list(5, 2), Answer::refused(11, 0));
        assert_eq!(list(4, 13), Answer::refused(12, 0));
        assert_eq!(list(2, 4), Answer::of_words(0));
    }
}

/// A word over the first letters is one over more of them too: the list of one letter fewer is the list without the words that have the last
/// letter.
#[test]
fn lists_of_fewer_letters() {
    for k in 2..=LARGEST_ALPHABET {
        for n in 0..=LONGEST_SQUARE_FREE {
            let [fewer, all] = [k - 1, k].map(|k| letters(Alphabet(k), Length(n)));
            let last = FIRST_LETTER + (k - 1) as u8;
            let without = all.into_iter().filter(|word| !word.contains(&last));
            assert!(without.eq(fewer), "{k} letters, length {n}");
        }
    }
}
