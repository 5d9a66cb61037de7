//! Counts (request C-12): the outside vectors' lists, marked words, and words of every kind, valid and damaged, on the library and on the
//! second implementation; and what the request claims of a count and its list. A tracker's counts are also in `histories` and
//! `made_trackers`, those of windows in `windows`, those of square-free words in `square_free`.
use crate::records::{read, read_runs, Answered, Call, CallsRecord, WordRecord};
use crate::support::{assert_count_and_list_agree, assert_same_fields, seeded, shown, Shown};
use crate::support::{damage, not_a_letter, patterns_for, shown_square_free, shown_windows};
use crate::support::{step, tracked, words_of_each_kind, BOTH, COUNT_CALLS, LIST_CALLS};
use checks::calls::{Answer, Calls};
use checks::generator::{abba, alternating, fibonacci, Generator};
use checks::library::Library;
use checks::reference::{is_one_letter, Reference};
use luffbutton::{Alphabet, Length, FIRST_LETTER, LETTERS, LONGEST, LONGEST_RECORD};

/// The counts are named after the list calls beside which they stand.
#[test]
fn every_list_call_has_its_count() {
    for ((list, _), (count, _)) in LIST_CALLS.into_iter().zip(COUNT_CALLS) {
        let listed = list.strip_prefix("list_").unwrap_or(list);
        assert_eq!(count, format!("count_{listed}"));
    }
}

/// What is due of each count whose list the record has; those of runs have vectors of their own.
fn due(name: &str, record: &WordRecord) -> Option<Answer> {
    match name {
        "count_plain" | "count_skipping" => Some(Answer::of_words(record.periods.len())),
        "count_full" | "count_full_scaled" => Some(Answer::of_words(record.full.len())),
        "count_squares" => Some(Answer::of_words(record.squares.len())),
        "count_report" => Some(record.report.answer),
        _ => None,
    }
}

fn words_agree(calls: &dyn Calls) {
    for record in read().words {
        let _shown = shown(&record.word);
        for (name, count) in COUNT_CALLS {
            if let Some(due) = due(name, &record) {
                assert_eq!(count(calls, &record.word), due, "{name}");
            }
        }
        let counted = calls.count(&tracked(calls, &record.word));
        assert_eq!(counted, Answer::of_words(record.periods.len()), "count");
    }
}

#[test]
fn vectors_of_words_on_the_library() {
    words_agree(&Library);
}

#[test]
fn vectors_of_words_on_the_reference() {
    words_agree(&Reference);
}

/// A run is two words.
#[test]
fn vectors_of_runs() {
    for record in read_runs() {
        let _shown = shown(&record.word);
        for calls in BOTH {
            let answer = calls.count_runs(&record.word);
            assert_eq!(answer, Answer::of_words(2 * record.runs.len()));
        }
    }
}

/// What a count made just before the call answers, as far as the record says it: the number of words that a list has, which is given also
/// where the slice is too short; and 6 where the call is refused with it.
fn due_before(recorded: &Answered) -> Option<Answer> {
    match (recorded.call, recorded.answer.number) {
        (_, 6) => Some(recorded.answer),
        (Call::List(_), 3) => Some(Answer::of_words(recorded.answer.value)),
        (Call::List(_), _) => Some(recorded.answer),
        _ => None,
    }
}

/// The records' calls with a count before and behind each: they are answered as before, and leave the same tracker. Returns how many counts
/// the records say something of.
fn counts_among_calls_agree(calls: &dyn Calls, records: &[CallsRecord]) -> usize {
    let mut compared = 0;
    for record in records {
        let _shown = Shown(format!("the record of line {}", record.line));
        let mut tracker = record.before.clone();
        for recorded in &record.calls {
            let before = calls.count(&tracker);
            let (answer, _) = step(calls, &mut tracker, recorded.call);
            assert_eq!(answer, recorded.answer, "{:?}", recorded.call);
            let behind = calls.count(&tracker);
            if let Some(due) = due_before(recorded) {
                assert_eq!([before, behind], [due; 2], "{:?}", recorded.call);
                compared += 1;
            }
        }
        assert_same_fields(&tracker, &record.after);
    }
    compared
}

#[test]
fn vectors_of_trackers() {
    let records = read();
    for calls in BOTH {
        let histories = counts_among_calls_agree(calls, &records.histories);
        let made = counts_among_calls_agree(calls, &records.made);
        assert_eq!((histories, made), (223, 24));
    }
}

/// The numbers of document 01's marked words, of its report of abb and of C-11's example: periods, full periods, squares, words of runs, and
/// the words of the report, or its refusal.
#[test]
fn marked_words() {
    let table: [(&[u8], [usize; 4], Answer); 6] = [
        (b"", [0, 0, 0, 0], Answer::of_words(1)),
        (b"a", [1, 0, 0, 0], Answer::of_words(2)),
        (b"aa", [2, 1, 1, 2], Answer::refused(10, 0)),
        (b"abb", [2, 0, 1, 2], Answer::of_words(4)),
        (b"abba", [4, 1, 2, 4], Answer::of_words(8)),
        (b"abaababa", [16, 0, 6, 10], Answer::of_words(23)),
    ];
    for (word, [periods, full, squares, runs], report) in table {
        let _shown = shown(word);
        let lists = [periods, periods, full, full, squares, runs].map(Answer::of_words);
        for calls in BOTH {
            let due = lists.into_iter().chain([report]);
            for ((name, count), due) in COUNT_CALLS.into_iter().zip(due) {
                assert_eq!(count(calls, word), due, "{name}");
            }
            let counted = calls.count(&tracked(calls, word));
            assert_eq!(counted, Answer::of_words(periods), "count");
        }
    }
}

/// Compares every count on a word with the second implementation, and holds it against the library's own list. The counts are refused with this
/// number, or accepted where it is 0; but the report's is refused with 10 where the others are accepted and all letters are equal.
fn compare(word: &[u8], number: usize, generator: &mut Generator) {
    let _shown = shown(word);
    for ((_, list), (name, count)) in LIST_CALLS.into_iter().zip(COUNT_CALLS) {
        let counted = count(&Library, word);
        let one_letter = name == "count_report" && number == 0 && is_one_letter(word);
        let due = if one_letter { 10 } else { number };
        assert_eq!(counted.number, due, "{name}");
        assert_eq!(counted, count(&Reference, word), "{name}");
        let list = |out: &mut [u32]| list(&Library, word, out);
        assert_count_and_list_agree(name, counted, list, generator);
    }
}

#[test]
fn random_words() {
    let mut generator = seeded(120);
    for n in (1..=40).chain([97, 121, 239, LONGEST]) {
        for k in [1, 2, 3, 5, LETTERS] {
            for word in words_of_each_kind(&mut generator, n, k) {
                compare(&word, 0, &mut generator);
            }
        }
    }
}

#[test]
fn words_with_many_cycles() {
    let mut generator = seeded(121);
    for n in [0, 1, 2, 3, 4, 5, 16, 60, 120, 239, LONGEST] {
        for word in [vec![FIRST_LETTER; n], alternating(n), fibonacci(n), abba(n)] {
            compare(&word, 0, &mut generator);
        }
    }
}

/// Words with bytes that are no letters, and words that are too long, with such bytes and without: these are refused for their length.
#[test]
fn damaged_words() {
    let mut generator = seeded(122);
    for n in (1..=30).chain([120, 239, LONGEST, LONGEST + 1, LONGEST + 2, 256, 481, 1000]) {
        for mut word in words_of_each_kind(&mut generator, n, 3) {
            let too_long = usize::from(n > LONGEST);
            compare(&word, too_long, &mut generator);
            for _ in 0..1 + generator.below(3) {
                let at = generator.below(n);
                word[at] = not_a_letter(&mut generator);
            }
            compare(&word, 2 - too_long, &mut generator);
        }
    }
}

/// Compares the count of windows with the second implementation, and holds it against the library's own list. Returns the number of the
/// refusal, or 0.
fn compare_windows(pattern: &[u8], record: &[u8], generator: &mut Generator) -> usize {
    let _shown = shown_windows(pattern, record);
    let counted = Library.count_windows(pattern, record);
    assert_eq!(counted, Reference.count_windows(pattern, record));
    let list = |out: &mut [u32]| Library.list_windows(pattern, record, out);
    assert_count_and_list_agree("count_windows", counted, list, generator);
    counted.number
}

#[test]
fn windows() {
    let mut generator = seeded(123);
    for n in (0..=40).chain([120, 241, 1000, 30000, LONGEST_RECORD]) {
        for k in [1, 2, 3, LETTERS] {
            let record = generator.uniform(n, k);
            for pattern in patterns_for(&record, k, &mut generator) {
                assert_eq!(compare_windows(&pattern, &record, &mut generator), 0);
            }
        }
    }
}

/// Each refusal of the list but 3 is the count's too.
#[test]
fn windows_of_damaged_patterns_and_records() {
    let mut generator = seeded(124);
    for n in [1, 2, 30, 241, 1000] {
        for m in [1, 2, 30, LONGEST] {
            let (pattern, record) = (generator.uniform(m, 3), generator.uniform(n, 3));
            let (mut bad_pattern, mut bad_record) = (pattern.clone(), record.clone());
            damage(&mut bad_pattern, &mut generator);
            damage(&mut bad_record, &mut generator);
            let long_pattern = generator.uniform(LONGEST + m, 3);
            let long_record = generator.uniform(LONGEST_RECORD + n, 3);
            let refused: [(&[u8], &[u8], usize); 6] = [
                (&long_pattern, &record, 1),
                (&bad_pattern, &bad_record, 2),
                (&pattern, &bad_record, 2),
                (b"", &long_record, 8),
                (&pattern, &long_record, 9),
                (&pattern, &record, 0),
            ];
            for (pattern, record, number) in refused {
                assert_eq!(compare_windows(pattern, record, &mut generator), number);
            }
        }
    }
}

/// Holds the count of square-free words against the library's own list. Returns the count's answer.
fn count_square_free(k: usize, n: usize, generator: &mut Generator) -> Answer {
    let (alphabet, length) = (Alphabet(k), Length(n));
    let _shown = shown_square_free(alphabet, length);
    let counted = Library.count_square_free(alphabet, length);
    let list = |out: &mut [u32]| Library.list_square_free(alphabet, length, out);
    assert_count_and_list_agree("count_square_free", counted, list, generator);
    counted
}

/// Every alphabet and every length around those that are taken, and the greatest numbers. Up to length 7 the count is the second
/// implementation's too.
#[test]
fn square_free_words() {
    let mut generator = seeded(125);
    for k in (0..=6).chain([usize::MAX]) {
        for n in (0..=14).chain([usize::MAX]) {
            let counted = count_square_free(k, n, &mut generator);
            let due = match (k, n) {
                (0 | 5.., _) => 11,
                (_, 13..) => 12,
                _ => 0,
            };
            assert_eq!(counted.number, due, "{k}, {n}");
            if n <= 7 || due != 0 {
                assert_eq!(counted, Reference.count_square_free(Alphabet(k), Length(n)));
            }
        }
    }
}
