//! Abelian runs (request C-11): the outside vectors, on the library and on the second implementation, and words with many runs.
use crate::records::{read_runs, RunsRecord};
use crate::support::{assert_lists, compare_list, lent, marks, shown, ListCall, BOTH};
use checks::calls::{Answer, Calls};
use checks::generator::{abba, alternating, fibonacci, repeated};
use checks::library::Library;
use checks::reference::{Reference, Run};
use luffbutton::{BOUND_RUNS, FIRST_LETTER, LONGEST};

/// The call as one of the list calls.
const LIST_RUNS: ListCall = |calls, word, out| calls.list_runs(word, out);

#[test]
fn the_file_has_its_records() {
    let records = read_runs();
    assert_eq!(records.len(), 159);
    let listed: usize = records.iter().map(|record| record.runs.len()).sum();
    assert_eq!(listed, 3608);
    let longest = records.iter().map(|record| record.word.len()).max();
    assert_eq!(longest, Some(LONGEST));
}

/// The two words of each run, as request C-11 writes them.
fn due_words(record: &RunsRecord) -> Vec<u32> {
    let words = |run: &Run| {
        [
            5 * (1 << 28) + run.d * (1 << 14) + run.i,
            6 * (1 << 28) + run.j * (1 << 16) + run.left * (1 << 8) + run.right,
        ]
    };
    let all = record.runs.iter().flat_map(words);
    all.map(|word| word as u32).collect()
}

fn records_agree(calls: &dyn Calls, records: &[RunsRecord]) {
    for record in records {
        let _shown = shown(&record.word);
        let words = due_words(record);
        let due = Answer::of_words(words.len());
        let call = |out: &mut [u32]| calls.list_runs(&record.word, out);
        assert_lists(call, &words, due, "list_runs");
    }
}

#[test]
fn vectors_on_the_library() {
    records_agree(&Library, &read_runs());
}

#[test]
fn vectors_on_the_reference() {
    records_agree(&Reference, &read_runs());
}

/// The runs of words over letters that request C-16 adds, by hand. Blocks that differ in q and r alone make none; of rqqr there are those of
/// abba, of zyzyz two, of which one has a hand on its left and the other on its right, and of zqrqr one, which z leaves without a hand.
#[test]
fn words_over_added_letters() {
    let run = |(d, i, j, left, right)| Run {
        d,
        i,
        j,
        left,
        right,
    };
    let table = [
        (&b"aqa"[..], vec![]),
        (b"aqaraq", vec![]),
        (b"rqqr", vec![(1, 2, 3, 0, 0), (2, 1, 4, 0, 0)]),
        (b"zyzyz", vec![(2, 1, 4, 0, 1), (2, 2, 5, 1, 0)]),
        (b"zqrqr", vec![(2, 2, 5, 0, 0)]),
    ];
    let records = table.map(|(word, runs)| RunsRecord {
        word: word.to_vec(),
        runs: runs.into_iter().map(run).collect(),
    });
    for calls in BOTH {
        records_agree(calls, &records);
    }
}

/// The run of abaababa that the request gives, d = 3 and i = 1, stands fourth: behind one with d = 1 and two with d = 2.
#[test]
fn the_example_of_the_request() {
    for calls in BOTH {
        let (answer, out) = lent(12, |out| calls.list_runs(b"abaababa", out));
        assert_eq!((answer.number, answer.written), (0, 10));
        assert_eq!(out[6..8], [1342226433, 1611005954]);
        assert_eq!(out[10..], marks(12)[10..]);
    }
}

/// Compares the call with the second implementation with places for every list of runs, and with some around what is needed: of a run
/// whose second word has no place, the first is not written either. Returns the words needed.
fn compare(word: &[u8]) -> usize {
    let _shown = shown(word);
    let needed = compare_list("list_runs", LIST_RUNS, word, BOUND_RUNS).written;
    for places in [needed, needed + 1, needed + 2] {
        let answer = compare_list("list_runs", LIST_RUNS, word, places);
        assert_eq!((answer.number, answer.written), (0, needed));
    }
    for places in [0, needed.saturating_sub(2), needed.saturating_sub(1)] {
        if places < needed {
            let (answer, out) = lent(places, |out| Library.list_runs(word, out));
            assert_eq!(answer, Answer::refused(3, needed), "{places} places");
            assert_eq!(out, marks(places), "{places} places");
        }
    }
    needed
}

#[test]
fn words_with_many_runs() {
    assert_eq!(compare(&abba(LONGEST)), 2 * 5420);
    assert_eq!(compare(&repeated(b"aabb", LONGEST)), 2 * 5470);
    // Document 003's Lemma 8.
    compare(&repeated(b"aababbab", LONGEST));
    for n in [0, 1, 2, 3, 4, 5, 120, 239, LONGEST] {
        compare(&vec![FIRST_LETTER; n]);
        compare(&alternating(n));
        compare(&fibonacci(n));
    }
}
