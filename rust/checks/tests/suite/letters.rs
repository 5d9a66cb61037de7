//! Ten more letters (request C-16): which bytes are letters, and that none is taken for another. A word with other letters in the same order
//! is answered as the word itself, by every call. The request's `aqa`, a word of all letters and words whose blocks differ in q and r alone
//! are rows of letters.txt, which `vectors` and `counts` try; of runs and windows such rows stand in `runs` and `windows`.
use crate::support::{assert_same_fields, compare_word, lent, patterns_for, places_enough, seeded};
use crate::support::{shown, shown_windows, tracked, words_of_each_kind, BOTH};
use crate::support::{COUNT_CALLS, LIST_CALLS};
use checks::calls::{Answer, Calls};
use checks::generator::Generator;
use checks::library::Library;
use checks::reference::{pairs, Reference};
use luffbutton::{Fields, Head, Period, BOARD, FIRST_LETTER, LETTERS, LONGEST};

/// How many letters the request adds. They are the last ones, q to z.
const ADDED: usize = 10;

/// The letters in their order.
fn letters() -> Vec<u8> {
    (FIRST_LETTER..).take(LETTERS).collect()
}

/// The bytes 97 to 122 pass, as the request names them, and no others.
#[test]
fn the_letters_are_a_to_z() {
    assert_eq!(letters(), (97..=122).collect::<Vec<u8>>());
    for calls in BOTH {
        for byte in 0..=u8::MAX {
            let due = match byte {
                97..=122 => Answer::default(),
                _ => Answer::refused(2, 1),
            };
            assert_eq!(calls.find_cover(&[byte]), due, "find_cover of {byte}");
            let added = calls.add(&mut Fields::zero(), byte);
            assert_eq!(added, due, "add of {byte}");
        }
    }
}

/// The word with these letters for the first ones.
fn renamed(word: &[u8], letters: &[u8]) -> Vec<u8> {
    let other = |&letter: &u8| letters[usize::from(letter - FIRST_LETTER)];
    word.iter().map(other).collect()
}

/// The tracker with these letters for the first ones.
fn renamed_tracker(tracker: &Fields, letters: &[u8]) -> Fields {
    let mut other = tracker.clone();
    let held = &mut other.bytes[..tracker.length];
    held.copy_from_slice(&renamed(held, letters));
    other
}

/// Asserts that every call on a word answers of the renamed word what it answers of the word, and what the second implementation answers.
/// The letters rise, so that letter order is kept; the judge's letter is renamed as the word is.
fn assert_renamed(word: &[u8], letters: &[u8], generator: &mut Generator) {
    let other = renamed(word, letters);
    compare_word(&other, generator);
    let _shown = shown(&other);
    let places = places_enough(word.len());
    for (name, call) in LIST_CALLS {
        let listed = |word: &[u8]| lent(places, |out| call(&Library, word, out));
        assert_eq!(listed(&other), listed(word), "{name}");
    }
    assert_eq!(Library.find_cover(&other), Library.find_cover(word));
    for pair in pairs(word.len()) {
        let mut due = Library.judge(word, pair.head, pair.period);
        if due.yes == 0 {
            due.letter = usize::from(renamed(&[due.letter as u8], letters)[0]);
        }
        let verdict = Library.judge(&other, pair.head, pair.period);
        assert_eq!(verdict, due, "judge {pair:?}");
    }
}

/// The same of the calls on a tracker to which the letters are added, one by one and by a replay.
fn assert_trackers_renamed(word: &[u8], letters: &[u8]) {
    let other = renamed(word, letters);
    let _shown = shown(&other);
    let (mut before, mut tracker) = (tracked(&Library, word), tracked(&Library, &other));
    assert_same_fields(&tracker, &renamed_tracker(&before, letters));
    assert_same_fields(&tracker, &tracked(&Reference, &other));
    let listed = lent(BOARD, |out| Library.list(&tracker, out));
    assert!(listed == lent(BOARD, |out| Library.list(&before, out)));
    assert_eq!(Library.count(&tracker), listed.0);
    let mut replayed = Fields::zero();
    assert!(listed == lent(BOARD, |out| Library.replay(&mut replayed, &other, out)));
    assert_same_fields(&replayed, &tracker);
    for changed in [&mut before, &mut tracker] {
        assert_eq!(Library.take_back(changed), Answer::default());
    }
    assert_same_fields(&tracker, &renamed_tracker(&before, letters));
}

/// The same of a pattern's windows in a record.
fn assert_windows_renamed(pattern: &[u8], record: &[u8], letters: &[u8]) {
    let others = [renamed(pattern, letters), renamed(record, letters)];
    let _shown = shown_windows(&others[0], &others[1]);
    let list = |calls: &dyn Calls, pattern: &[u8], record: &[u8]| {
        lent(record.len(), |out| calls.list_windows(pattern, record, out))
    };
    let due = list(&Library, pattern, record);
    for calls in BOTH {
        assert_eq!(list(calls, &others[0], &others[1]), due);
        let counted = calls.count_windows(&others[0], &others[1]);
        assert_eq!(counted, Answer::of_words(due.0.written));
    }
}

#[test]
fn each_letter_by_itself() {
    let mut generator = seeded(160);
    for letter in letters() {
        for n in 1..=6 {
            let word = vec![FIRST_LETTER; n];
            assert_renamed(&word, &[letter], &mut generator);
            assert_trackers_renamed(&word, &[letter]);
            assert_windows_renamed(&word[..1 + n / 3], &word, &[letter]);
        }
    }
}

/// Blocks that differ in x and y alone, behind an a in each: the judge finds x missing in the second one, (1, 3) and (0, 4) are the periods,
/// and there is no full period, no square, no run and no cover.
fn assert_told_apart(x: u8, y: u8) {
    let word = [FIRST_LETTER, x, FIRST_LETTER, y];
    let _shown = shown(&word);
    let due = Answer {
        block: 2,
        letter: usize::from(x),
        ..Answer::default()
    };
    assert_eq!(Library.judge(&word, Head(0), Period(2)), due);
    for ((name, count), words) in COUNT_CALLS.into_iter().zip([2, 2, 0, 0, 0, 0, 3]) {
        assert_eq!(count(&Library, &word), Answer::of_words(words), "{name}");
    }
    assert_eq!(Library.find_cover(&word), Answer::default());
}

#[test]
fn every_two_letters() {
    let mut generator = seeded(161);
    let letters = letters();
    for (i, &x) in letters.iter().enumerate() {
        for &y in &letters[i + 1..] {
            assert_renamed(b"abaababa", &[x, y], &mut generator);
            if x > FIRST_LETTER {
                assert_told_apart(x, y);
                let three = [FIRST_LETTER, x, y];
                assert_renamed(b"abacab", &three, &mut generator);
                assert_trackers_renamed(b"abacab", &three);
                assert_windows_renamed(b"ba", b"abacab", &three);
            }
        }
    }
}

/// Words over the last letters alone, q to z or fewer.
#[test]
fn words_over_added_letters() {
    let mut generator = seeded(162);
    let letters = letters();
    for n in (1..=30).chain([121, LONGEST]) {
        for k in [2, 3, 5, ADDED] {
            let last = &letters[LETTERS - k..];
            for word in words_of_each_kind(&mut generator, n, k) {
                assert_renamed(&word, last, &mut generator);
                assert_trackers_renamed(&word, last);
                for pattern in patterns_for(&word, k, &mut generator) {
                    assert_windows_renamed(&pattern, &word, last);
                }
            }
        }
    }
}
