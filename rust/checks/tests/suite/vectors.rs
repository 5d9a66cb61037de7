//! The outside vectors of document 01 over the letters of request C-16, with the report's head of C-14, each kind of record on the library
//! and on the second implementation; and rows of our own behind them, since no word of the vectors that is read has n or q.
use crate::records::{read, Answered, Call, CallsRecord, WordRecord};
use crate::support::{assert_lists, assert_same_fields, filled, lent, marks, places_enough};
use crate::support::{shown, step, Shown, COUNT_CALLS, LIST_CALLS};
use checks::calls::{Answer, Calls};
use checks::library::Library;
use checks::reference::{cover_lengths, ended_length, pairs, Machine, Pair, Prefixes, Reference};
use luffbutton::{Fields, Head, Period};

/// Those of the outside vectors and ours.
#[test]
fn the_files_have_their_records() {
    let records = read();
    let made_lists = |calls: &[CallsRecord]| calls.iter().map(|x| x.calls.len()).sum::<usize>();
    assert_eq!(records.words.len(), 179 + 10);
    assert_eq!(records.refused.len(), 23 + 4);
    assert_eq!(records.ranges.len(), 8);
    assert_eq!(records.histories.len(), 60 + 2);
    assert_eq!(records.made.len(), 60 + 6);
    assert_eq!(
        made_lists(&records.histories) + made_lists(&records.made),
        1263 + 52
    );
}

/// The words that a list call is to write, and its numbers, by the record.
fn due_list(name: &str, record: &WordRecord) -> (Vec<u32>, Answer) {
    if name == "report" {
        return (record.report.words.clone(), record.report.answer);
    }
    let word = |kind: u32, upper: usize, lower: usize| {
        kind * (1 << 28) + upper as u32 * (1 << 14) + lower as u32
    };
    let period = |pair: &Pair| word(1, pair.period.0, pair.head.0);
    let periods = || record.periods.iter().map(period).collect();
    let square = |&(half, start): &(usize, usize)| word(2, half, start);
    let full = |&p: &usize| word(3, p, record.word.len() / p);
    let (words, mut answer): (Vec<u32>, Answer) = (
        match name {
            "list_plain" | "list_skipping" => periods(),
            "list_full" | "list_full_scaled" => record.full.iter().map(full).collect(),
            "list_squares" => record.squares.iter().map(square).collect(),
            other => panic!("the record has no {other}"),
        },
        Answer::default(),
    );
    answer.written = words.len();
    match name {
        "list_plain" => answer.trials = record.plain_trials,
        "list_skipping" => answer.trials = record.skipping_trials,
        "list_full_scaled" => (answer.s, answer.t) = (record.s, record.t),
        _ => {}
    }
    (words, answer)
}

/// Each list call but that of runs, which have vectors of their own.
fn lists_agree(calls: &dyn Calls, record: &WordRecord) {
    let recorded = LIST_CALLS
        .into_iter()
        .filter(|&(name, _)| name != "list_runs");
    for (name, call) in recorded {
        let (words, due) = due_list(name, record);
        assert_lists(|out| call(calls, &record.word, out), &words, due, name);
    }
}

/// The smallest of the record's cover lengths is answered, or that there is none.
fn cover_agrees(calls: &dyn Calls, record: &WordRecord) {
    let smallest = record.covers.iter().min().copied();
    let due = Answer {
        yes: usize::from(smallest.is_some()),
        cover: smallest.unwrap_or(0),
        ..Answer::default()
    };
    assert_eq!(calls.find_cover(&record.word), due, "find_cover");
}

/// The judge on every pair in range.
fn judge_agrees(calls: &dyn Calls, record: &WordRecord) {
    for pair in pairs(record.word.len()) {
        let answer = calls.judge(&record.word, pair.head, pair.period);
        let due = match record.failures.get(&(pair.head.0, pair.period.0)) {
            None => Answer {
                yes: 1,
                ..Answer::default()
            },
            Some(&(block, letter)) => Answer {
                block,
                letter,
                ..Answer::default()
            },
        };
        assert_eq!(answer, due, "judge {pair:?}");
    }
}

fn words_agree(calls: &dyn Calls) {
    for record in read().words {
        let _shown = shown(&record.word);
        lists_agree(calls, &record);
        cover_agrees(calls, &record);
        judge_agrees(calls, &record);
    }
}

#[test]
fn words_on_the_library() {
    words_agree(&Library);
}

#[test]
fn words_on_the_reference() {
    words_agree(&Reference);
}

#[test]
fn cover_lengths_by_definition() {
    for record in read().words {
        let _shown = shown(&record.word);
        assert_eq!(cover_lengths(&record.word), record.covers);
    }
}

/// A tracker to which the letters of each word are added has its ended lengths on the board, and lists its periods.
fn ended_lengths_agree(calls: &dyn Calls) {
    for record in read().words {
        let _shown = shown(&record.word);
        let mut tracker = Fields::zero();
        for &letter in &record.word {
            assert_eq!(calls.add(&mut tracker, letter), Answer::default());
        }
        let mut due = Fields::zero();
        due.length = record.word.len();
        due.bytes[..due.length].copy_from_slice(&record.word);
        due.board = record.board;
        due.live = record.periods.len();
        due.ended = pairs(due.length).len() - due.live;
        assert_same_fields(&tracker, &due);
        let (words, _) = due_list("list_plain", &record);
        let (answer, out) = lent(words.len() + 5, |out| calls.list(&tracker, out));
        assert_eq!((answer.number, answer.written), (0, words.len()));
        assert_eq!(out, filled(&words, words.len() + 5));
        assert_same_fields(&tracker, &due);
    }
}

#[test]
fn ended_lengths_on_the_library() {
    ended_lengths_agree(&Library);
}

#[test]
fn ended_lengths_on_the_reference() {
    ended_lengths_agree(&Reference);
}

#[test]
fn ended_lengths_by_definition() {
    for record in read().words.iter().filter(|x| x.word.len() <= 100) {
        let _shown = shown(&record.word);
        let all = pairs(luffbutton::LONGEST).into_iter();
        let entries = all.map(|pair| ended_length(&record.word, pair) as u8);
        assert!(entries.eq(record.board));
        let mut prefixes = Prefixes::default();
        prefixes.follow(&record.word);
        assert!(prefixes.board() == record.board);
    }
}

/// Every call that reads a word refuses it, with every other number 0, and leaves the slice as it came.
fn refused_words_agree(calls: &dyn Calls) {
    for record in read().refused {
        let _shown = shown(&record.word);
        for (name, call) in LIST_CALLS {
            for places in [0, 2, places_enough(record.word.len())] {
                let (answer, out) = lent(places, |out| call(calls, &record.word, out));
                assert_eq!(answer, record.answer, "{name}");
                assert_eq!(out, marks(places), "{name}");
            }
        }
        for (name, count) in COUNT_CALLS {
            assert_eq!(count(calls, &record.word), record.answer, "{name}");
        }
        assert_eq!(calls.find_cover(&record.word), record.answer);
        for (h, p) in [(0, 1), (1, 1), (0, usize::MAX)] {
            let answer = calls.judge(&record.word, Head(h), Period(p));
            assert_eq!(answer, record.answer, "judge ({h}, {p})");
        }
    }
}

#[test]
fn refused_words_on_the_library() {
    refused_words_agree(&Library);
}

#[test]
fn refused_words_on_the_reference() {
    refused_words_agree(&Reference);
}

fn ranges_agree(calls: &dyn Calls) {
    for record in read().ranges {
        let _shown = shown(&record.word);
        let answer = calls.judge(&record.word, record.head, record.period);
        assert_eq!(
            answer, record.answer,
            "{:?} {:?}",
            record.head, record.period
        );
    }
}

#[test]
fn pairs_out_of_range_on_the_library() {
    ranges_agree(&Library);
}

#[test]
fn pairs_out_of_range_on_the_reference() {
    ranges_agree(&Reference);
}

/// Asserts that a call's answer and slice are the record's.
fn assert_answered(due: &Answered, answer: Answer, out: &[u32]) {
    assert_eq!(answer, due.answer, "{:?}", due.call);
    if let Call::List(places) = due.call {
        assert_eq!(out, filled(&due.words, places), "{:?}", due.call);
    }
}

fn calls_agree(calls: &dyn Calls, records: &[CallsRecord]) {
    for record in records {
        let _shown = Shown(format!("the record of line {}", record.line));
        let mut tracker = record.before.clone();
        for due in &record.calls {
            let (answer, out) = step(calls, &mut tracker, due.call);
            assert_answered(due, answer, &out);
        }
        assert_same_fields(&tracker, &record.after);
    }
}

#[test]
fn histories_on_the_library() {
    calls_agree(&Library, &read().histories);
}

#[test]
fn histories_on_the_reference() {
    calls_agree(&Reference, &read().histories);
}

#[test]
fn histories_on_the_machine() {
    for record in read().histories {
        let _shown = Shown(format!("the record of line {}", record.line));
        let mut machine = Machine::default();
        for due in &record.calls {
            let (answer, out) = match due.call {
                Call::Add(letter) => (machine.add(letter), Vec::new()),
                Call::TakeBack => (machine.take_back(), Vec::new()),
                Call::Clear => (machine.clear(), Vec::new()),
                Call::List(places) => lent(places, |out| machine.list(out)),
                Call::Count => (machine.count(), Vec::new()),
            };
            assert_answered(due, answer, &out);
        }
        assert_eq!(machine.letters, record.after.bytes[..record.after.length]);
    }
}

#[test]
fn made_trackers_on_the_library() {
    calls_agree(&Library, &read().made);
}

#[test]
fn made_trackers_on_the_reference() {
    calls_agree(&Reference, &read().made);
}
