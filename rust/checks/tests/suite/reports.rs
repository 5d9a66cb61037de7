//! The report by both its paths: with so many places that none of its words can be missing, it is written at once; with fewer it is
//! counted first. The outside vectors of request C-14, on the library and on the second implementation, the cover length in the head, and the
//! words of equal letters that request C-17 refuses.
use crate::records::{read, read_reports, Reported};
use crate::support::{assert_lists, compare_list, filled, lent, marks, seeded, shown};
use crate::support::{BOTH, LIST_CALLS};
use checks::calls::{Answer, Calls};
use checks::generator::{abba, alternating, fibonacci};
use checks::library::Library;
use checks::reference::{is_one_letter, Reference};
use luffbutton::{FIRST_LETTER, LETTERS, LONGEST, MOST_REPORT};

#[test]
fn the_file_has_its_records() {
    let records = read_reports();
    assert_eq!(records.len(), 80);
    let words: usize = records.iter().map(|record| record.report.words.len()).sum();
    assert_eq!(words, 1280);
    let longest = records.iter().map(|record| record.word.len()).max();
    assert_eq!(longest, Some(16));
}

/// So many words of the two files with reports have two or more letters that are all equal.
#[test]
fn the_files_have_their_words_of_one_letter() {
    let refused = |report: &Reported| report.answer == Answer::refused(10, 0);
    let records = read_reports();
    let reports = records.iter().filter(|record| refused(&record.report));
    let records = read().words;
    let words = records.iter().filter(|record| refused(&record.report));
    assert_eq!((reports.count(), words.count()), (32, 69));
}

/// Each report of the file, by both paths, and its count.
fn vectors_agree(calls: &dyn Calls) {
    for record in read_reports() {
        let _shown = shown(&record.word);
        let Reported { words, answer } = record.report;
        let call = |out: &mut [u32]| calls.report(&record.word, out);
        assert_lists(call, &words, answer, "report");
        let at_once = (answer, filled(&words, MOST_REPORT));
        assert!(lent(MOST_REPORT, call) == at_once, "written at once");
        assert_eq!(calls.count_report(&record.word), answer, "count_report");
    }
}

#[test]
fn vectors_on_the_library() {
    vectors_agree(&Library);
}

#[test]
fn vectors_on_the_reference() {
    vectors_agree(&Reference);
}

/// The head of a word's report, by both paths.
fn heads(word: &[u8]) -> [usize; 2] {
    let needed = Library.count_report(word).written;
    [needed, MOST_REPORT].map(|places| {
        let (answer, out) = lent(places, |out| Library.report(word, out));
        assert_eq!(answer, Answer::of_words(needed), "{places} places");
        out[0] as usize
    })
}

/// Of each word in the files of vectors that is reported: the report's head has the length that the search for a cover answers, or 0 where it
/// finds none.
#[test]
fn heads_have_the_cover_length() {
    let reported = read_reports().into_iter().map(|record| record.word);
    let words = reported.chain(read().words.into_iter().map(|record| record.word));
    let (mut covered, mut uncovered) = (0, 0);
    for word in words.filter(|word| !is_one_letter(word)) {
        let _shown = shown(&word);
        let found = Library.find_cover(&word);
        assert_eq!(found.yes, usize::from(found.cover > 0));
        for head in heads(&word) {
            assert_eq!(head & 0x3fff, found.cover, "the lower field of {head}");
        }
        covered += found.yes;
        uncovered += 1 - found.yes;
    }
    assert_eq!((covered, uncovered), (97, 71));
}

/// Compares the report with the second implementation: on both sides of `MOST_REPORT` places, which no report needs, and on both sides of what
/// it needs.
fn compare(word: &[u8]) {
    let _shown = shown(word);
    let (name, call) = LIST_CALLS[LIST_CALLS.len() - 1];
    assert_eq!(name, "report");
    let at_once = compare_list(name, call, word, MOST_REPORT);
    let needed = at_once.written;
    assert!((1..MOST_REPORT).contains(&needed));
    for places in [MOST_REPORT + 1, MOST_REPORT + 300, MOST_REPORT - 1, needed] {
        assert_eq!(compare_list(name, call, word, places), at_once);
    }
    let short = compare_list(name, call, word, needed - 1);
    assert_eq!(short, Answer::refused(3, needed));
}

/// n letters, equal but for the one at this place.
fn one_differs(n: usize, at: usize) -> Vec<u8> {
    let mut word = vec![FIRST_LETTER; n];
    word[at] += 1;
    word
}

#[test]
fn reports_of_words_with_many_cycles() {
    for n in [0, 1, 2, 3, 16, 120, 239, LONGEST] {
        for word in [alternating(n), fibonacci(n), abba(n)] {
            compare(&word);
        }
    }
    for n in [2, 3, 16, 239, LONGEST] {
        for at in [0, n / 2, n - 1] {
            compare(&one_differs(n, at));
        }
    }
}

#[test]
fn reports_of_random_words() {
    let mut generator = seeded(110);
    for n in [1, 7, 30, 60, 180, LONGEST] {
        for k in [2, 4, LETTERS] {
            for word in [generator.uniform(n, k), generator.cyclic(n, k).0] {
                if !is_one_letter(&word) {
                    compare(&word);
                }
            }
        }
    }
}

/// Request C-17: the empty word and one letter are reported, and two or more equal letters are refused with 10, whatever the slice, by the
/// report and its count.
#[test]
fn words_of_one_letter() {
    for letter in (FIRST_LETTER..).take(LETTERS) {
        for n in 0..=LONGEST {
            let word = vec![letter; n];
            let _shown = shown(&word);
            let due = match n {
                0 => Answer::of_words(1),
                1 => Answer::of_words(2),
                _ => Answer::refused(10, 0),
            };
            for calls in BOTH {
                assert_eq!(calls.count_report(&word), due);
                for places in [due.written, due.written + 300] {
                    let (answer, out) = lent(places, |out| calls.report(&word, out));
                    assert_eq!(answer, due, "{places} places");
                    assert_eq!(out[due.written..], marks(places)[due.written..]);
                }
            }
        }
        let word = [letter; LONGEST];
        for places in [MOST_REPORT - 1, MOST_REPORT, MOST_REPORT + 1] {
            let refused = lent(places, |out| Library.report(&word, out));
            assert_eq!(refused, (Answer::refused(10, 0), marks(places)));
        }
    }
}

/// One letter that differs, at any place, is enough for a report; and one byte that is no letter for refusal 2.
#[test]
fn words_in_which_one_letter_differs() {
    for n in (2..=40).chain([120, 239, LONGEST]) {
        for at in 0..n {
            let mut word = one_differs(n, at);
            let _shown = shown(&word);
            let counted = Library.count_report(&word);
            assert_eq!(counted, Answer::of_words(counted.written));
            let reported = lent(MOST_REPORT, |out| Library.report(&word, out)).0;
            assert_eq!(reported, counted);
            assert!((1..MOST_REPORT).contains(&counted.written));
            if n <= 40 {
                assert_eq!(Reference.count_report(&word), counted);
            }
            word[at] = b'B';
            let refused = lent(5, |out| Library.report(&word, out));
            assert_eq!(refused, (Answer::refused(2, at + 1), marks(5)));
            assert_eq!(Library.count_report(&word), Answer::refused(2, at + 1));
        }
    }
}

/// Equal bytes that are no letters are refused with 2, and too many equal letters with 1.
#[test]
fn ten_behind_one_and_two() {
    for places in [0, MOST_REPORT] {
        for (word, due) in [
            (vec![b'B'; 2], Answer::refused(2, 1)),
            (vec![b'B'; LONGEST], Answer::refused(2, 1)),
            (vec![b'a'; LONGEST + 1], Answer::refused(1, 0)),
        ] {
            let _shown = shown(&word);
            let refused = lent(places, |out| Library.report(&word, out));
            assert_eq!(refused, (due, marks(places)));
            assert_eq!(Library.count_report(&word), due);
        }
    }
}

/// A word that is refused is refused by both paths.
#[test]
fn reports_of_words_that_are_none() {
    for places in [0, 5, MOST_REPORT - 1, MOST_REPORT, MOST_REPORT + 1] {
        let bad = lent(places, |out| Library.report(b"aBc", out));
        assert_eq!(bad, (Answer::refused(2, 2), marks(places)));
        let long = lent(places, |out| Library.report(&[b'a'; LONGEST + 1], out));
        assert_eq!(long, (Answer::refused(1, 0), marks(places)));
    }
}
