//! What is timed of square-free words: the library's list and count, beside the same search in plain Rust. A list is lent just as many places
//! as there are words.
use checks::calls::{Answer, Calls};
use checks::library::Library;
use checks::measure::{best, repeated, Timed, Turn};
use checks::peers::{count_square_free_searching, list_square_free_searching};
use luffbutton::{Alphabet, Length, LARGEST_ALPHABET, LONGEST_SQUARE_FREE};
use std::hint::black_box;

/// The lengths of the words.
pub const LENGTHS: [usize; 3] = [8, 10, LONGEST_SQUARE_FREE];

/// The letters that the words are made of: of fewer there are few words, or none.
const ALPHABET: Alphabet = Alphabet(LARGEST_ALPHABET);

/// A way to make a call on an alphabet and a length. A count leaves the places as they are.
type Caller = fn(Alphabet, Length, &mut [u32]) -> Answer;

/// The contenders for a call by name, the library first.
type Contenders = &'static [(&'static str, Caller)];

/// What is timed.
const CALLS: [(&str, Contenders); 2] = [
    (
        "list_square_free",
        &[
            ("library", |alphabet, length, out| {
                Library.list_square_free(alphabet, length, out)
            }),
            ("two searches", list_square_free_searching),
        ],
    ),
    (
        "count_square_free",
        &[
            ("library", |alphabet, length, _| {
                Library.count_square_free(alphabet, length)
            }),
            ("one search", |alphabet, length, _| {
                count_square_free_searching(alphabet, length)
            }),
        ],
    ),
];

/// Times both calls once.
pub fn pass() -> Vec<Timed> {
    CALLS.into_iter().map(time_call).collect()
}

fn time_call((call, contenders): (&'static str, Contenders)) -> Timed {
    let times = LENGTHS.map(|n| time_contenders(contenders, Length(n)));
    Timed {
        call,
        contenders: contenders.iter().map(|&(name, _)| name).collect(),
        words: vec![(format!("{} letters", ALPHABET.0), times.to_vec())],
    }
}

/// Times the contenders on a length, on which they were asserted to agree: the microseconds of one call.
fn time_contenders(contenders: Contenders, length: Length) -> Vec<f64> {
    let places = number_of_words(length);
    assert_agree(contenders, length, places);
    let turn = |&(_, caller): &(&str, Caller)| -> Turn<'_> {
        let mut out = vec![0; places];
        repeated(move || caller(black_box(ALPHABET), black_box(length), black_box(&mut out)))
    };
    best(contenders.iter().map(turn).collect())
}

/// All contenders give the same numbers and words.
fn assert_agree(contenders: Contenders, length: Length, places: usize) {
    let run = |caller: Caller| {
        let mut out = vec![0; places];
        (caller(ALPHABET, length, &mut out), out)
    };
    let due = run(contenders[0].1);
    assert_eq!(due.0, Answer::of_words(places));
    for &(name, caller) in contenders {
        assert!(run(caller) == due, "{name} disagrees");
    }
}

/// How many words of this length there are.
pub fn number_of_words(length: Length) -> usize {
    Library.count_square_free(ALPHABET, length).written
}
