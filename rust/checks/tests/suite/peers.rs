//! The algorithms that the benchmarks compare with give the second implementation's answers.
use crate::records::read_runs;
use crate::support::{alphabets, damage, lent, patterns_for, places_enough, seeded, shown};
use crate::support::{shown_square_free, shown_windows};
use checks::calls::{Answer, Calls};
use checks::generator::{abba, alternating, fibonacci, TIMED_WORDS};
use checks::library::Library;
use checks::peers::{add_in_place, list_brute_force, list_counting_anew, list_full_002};
use checks::peers::{count_square_free_searching, list_square_free_searching};
use checks::peers::{count_windows_sliding, list_runs_003, list_select_based};
use checks::peers::{
    list_sliding_windows, list_windows_collected, list_windows_in_two_passes, OnLine,
};
use checks::reference::Reference;
use luffbutton::{Alphabet, Fields, Length, FIRST_LETTER, LARGEST_ALPHABET, LETTERS, LONGEST};
use luffbutton::{LONGEST_RECORD, LONGEST_SQUARE_FREE};
use std::collections::HashSet;

type Peer = fn(&[u8], &mut [u32]) -> Answer;

/// Each algorithm, and the second implementation's call that it stands beside.
const PEERS: [(&str, Peer, Peer); 6] = [
    ("brute force", list_brute_force, |word, out| {
        Reference.list_plain(word, out)
    }),
    ("counting anew", list_counting_anew, |word, out| {
        Reference.list_plain(word, out)
    }),
    ("select-based", list_select_based, |word, out| {
        Reference.list_skipping(word, out)
    }),
    ("document 002", list_full_002, |word, out| {
        Reference.list_full_scaled(word, out)
    }),
    ("sliding windows", list_sliding_windows, |word, out| {
        Reference.list_squares(word, out)
    }),
    ("document 003", list_runs_003, |word, out| {
        Reference.list_runs(word, out)
    }),
];

fn compare(word: &[u8]) {
    let _shown = shown(word);
    for (name, peer, reference) in PEERS {
        for places in [places_enough(word.len()), 3] {
            let answered = lent(places, |out| peer(word, out));
            let due = lent(places, |out| reference(word, out));
            assert_eq!(answered, due, "{name}, {places} places");
        }
    }
}

#[test]
fn lists_of_random_words() {
    let mut generator = seeded(100);
    for n in (1..=40).chain([97, 240]) {
        for k in alphabets() {
            compare(&generator.uniform(n, k));
            compare(&generator.cyclic(n, k).0);
            compare(&generator.near_miss(n, k));
        }
    }
}

#[test]
fn lists_of_words_with_many_cycles_and_of_bad_words() {
    for n in [0, 1, 2, 3, 4, 30, 60, 239, 240] {
        compare(&vec![FIRST_LETTER; n]);
        compare(&alternating(n));
        compare(&fibonacci(n));
    }
    compare(b"abc?");
    compare(&[FIRST_LETTER; LONGEST + 1]);
}

/// The words on which calls are timed. The name of a random one says of how many letters it is.
#[test]
fn lists_of_timed_words() {
    for (name, word) in TIMED_WORDS {
        for n in [30, 60, 120, 240] {
            compare(&word(n));
        }
        if let Some(letters) = name.strip_prefix("random of ") {
            let found: HashSet<u8> = word(LONGEST).into_iter().collect();
            assert_eq!(found.len().to_string(), letters);
        }
    }
}

/// The words of the vectors of runs, and abba sixty times, which has 5,420.
#[test]
fn lists_of_words_with_runs() {
    for record in read_runs() {
        compare(&record.word);
    }
    let word = abba(LONGEST);
    compare(&word);
    let listed = lent(places_enough(LONGEST), |out| list_runs_003(&word, out)).0;
    assert_eq!((listed.number, listed.written), (0, 2 * 5420));
}

fn compare_windows(pattern: &[u8], record: &[u8]) {
    let _shown = shown_windows(pattern, record);
    let counted = Reference.count_windows(pattern, record);
    assert_eq!(count_windows_sliding(pattern, record), counted);
    let needed = counted.written;
    for places in [record.len(), needed, needed - needed.min(1)] {
        let due = lent(places, |out| Reference.list_windows(pattern, record, out));
        let collected = lent(places, |out| list_windows_collected(pattern, record, out));
        assert_eq!(collected, due, "collected, {places} places");
        let twice = lent(places, |out| {
            list_windows_in_two_passes(pattern, record, out)
        });
        assert_eq!(twice, due, "in two passes, {places} places");
    }
}

#[test]
fn windows_of_random_patterns_and_records() {
    let mut generator = seeded(102);
    for n in (0..=40).chain([97, 240, 241, 1000]) {
        for k in [1, 2, 3, 4, LETTERS] {
            let record = generator.uniform(n, k);
            for mut pattern in patterns_for(&record, k, &mut generator) {
                compare_windows(&pattern, &record);
                damage(&mut pattern, &mut generator);
                compare_windows(&pattern, &record);
            }
            let mut damaged = record.clone();
            damage(&mut damaged, &mut generator);
            compare_windows(b"ab", &damaged);
            compare_windows(b"", &damaged);
        }
    }
}

/// Patterns and records at the edges, and of the lengths that are timed.
#[test]
fn windows_of_long_patterns_and_records() {
    let mut generator = seeded(103);
    let letters = [FIRST_LETTER; LONGEST + 1];
    let mut long = vec![FIRST_LETTER; LONGEST_RECORD + 1];
    compare_windows(&letters, b"?");
    compare_windows(&letters[1..], &long);
    compare_windows(&letters[1..], &long[1..]);
    compare_windows(&letters[..1], &long[1..]);
    long[0] = b'?';
    compare_windows(&letters[1..], &long);
    for n in [1024, 16384, LONGEST_RECORD] {
        for k in [2, LETTERS] {
            let record = generator.uniform(n, k);
            for m in [1, 8, LONGEST] {
                compare_windows(&record[n / 2..n / 2 + m], &record);
            }
        }
    }
}

fn compare_square_free(due: &dyn Calls, k: usize, n: usize) {
    let (alphabet, length) = (Alphabet(k), Length(n));
    let _shown = shown_square_free(alphabet, length);
    let counted = due.count_square_free(alphabet, length);
    assert_eq!(count_square_free_searching(alphabet, length), counted);
    let needed = counted.written;
    for places in [needed, needed + 3, needed - needed.min(1)] {
        let searched = lent(places, |out| {
            list_square_free_searching(alphabet, length, out)
        });
        let due = lent(places, |out| due.list_square_free(alphabet, length, out));
        assert!(searched == due, "{places} places");
    }
}

#[test]
fn square_free_words() {
    for k in (0..=6).chain([usize::MAX]) {
        for n in (0..=7).chain([13, usize::MAX]) {
            compare_square_free(&Reference, k, n);
        }
    }
}

/// The lengths that take the second implementation too long, against the library.
#[test]
fn long_square_free_words() {
    for k in 1..=LARGEST_ALPHABET {
        for n in 8..=LONGEST_SQUARE_FREE {
            compare_square_free(&Library, k, n);
        }
    }
}

#[test]
fn adds() {
    let mut generator = seeded(101);
    for k in [1, 2, 4, LETTERS] {
        let (word, _) = generator.cyclic(LONGEST + 1, k);
        let _shown = shown(&word);
        let (mut due, mut in_place) = (Fields::zero(), Fields::zero());
        let mut on_line = OnLine::fresh();
        for letter in word {
            let answer = Reference.add(&mut due, letter);
            assert_eq!(add_in_place(&mut in_place, letter), answer);
            assert_eq!(on_line.add(letter), answer);
            assert!(in_place == due);
            assert_eq!((on_line.length, on_line.bytes), (due.length, due.bytes));
            assert!(on_line.board == due.board);
        }
    }
}

#[test]
fn refused_adds() {
    let mut tracker = Fields::zero();
    assert_eq!(
        add_in_place(&mut tracker, b'?'),
        Reference.add(&mut tracker, b'?')
    );
    assert_eq!(OnLine::fresh().add(b'?').number, 2);
    tracker.length = LONGEST + 1;
    assert_eq!(add_in_place(&mut tracker, b'a').number, 6);
    tracker.length = 1;
    assert_eq!(add_in_place(&mut tracker, b'a').number, 6);
}
