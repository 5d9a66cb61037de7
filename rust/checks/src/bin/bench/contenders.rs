//! What is timed: the library's calls and their peers, on seven kinds of words, runs on eight, the report on six; and the counts beside their
//! lists.
use checks::calls::{Answer, Calls};
use checks::generator::{timed_words, Word, TIMED_WORDS};
use checks::library::Library;
use checks::measure::{best, lower, on_copies, repeated, Timed, Turn, SIZES};
use checks::peers::{add_in_place, list_brute_force, list_counting_anew, list_full_002};
use checks::peers::{list_runs_003, list_select_based, list_sliding_windows, OnLine};
use luffbutton::{findings, Fields, Finding, LONGEST, MOST_REPORT};
use std::hint::black_box;

/// A byte that an add refuses.
const NOT_A_LETTER: u8 = b'?';

/// A way to make a call on a word. A call that writes no list leaves the places as they are.
type WordCaller = fn(&[u8], &mut [u32]) -> Answer;

/// A call on a word: its name, and the contenders, the library first.
pub type WordCall = (&'static str, &'static [(&'static str, WordCaller)]);

/// Asserts that contenders agree on a word.
type AssertAgree = fn(&[(&'static str, WordCaller)], &[u8]);

/// The calls on words, but for the judge's.
pub const WORD_CALLS: [WordCall; 8] = [
    (
        "list_plain",
        &[
            ("library", |word, out| Library.list_plain(word, out)),
            ("004, brute force", list_brute_force),
            ("counting anew", list_counting_anew),
        ],
    ),
    (
        "list_skipping",
        &[
            ("library", |word, out| Library.list_skipping(word, out)),
            ("004, select", list_select_based),
        ],
    ),
    (
        "list_full",
        &[("library", |word, out| Library.list_full(word, out))],
    ),
    (
        "list_full_scaled",
        &[
            ("library", |word, out| Library.list_full_scaled(word, out)),
            ("002", list_full_002),
        ],
    ),
    (
        "list_squares",
        &[
            ("library", |word, out| Library.list_squares(word, out)),
            ("sliding windows", list_sliding_windows),
        ],
    ),
    (
        "list_runs",
        &[
            ("library", |word, out| Library.list_runs(word, out)),
            ("003", list_runs_003),
        ],
    ),
    (
        "find_cover",
        &[("library", |word, _| Library.find_cover(word))],
    ),
    (
        "report",
        &[("library", |word, out| Library.report(word, out))],
    ),
];

/// The counts: beside each, the library's own list call whose words it counts.
pub const COUNTS: [WordCall; 7] = [
    (
        "count_plain",
        &[
            ("library", |word, _| Library.count_plain(word)),
            ("list_plain", |word, out| Library.list_plain(word, out)),
        ],
    ),
    (
        "count_skipping",
        &[
            ("library", |word, _| Library.count_skipping(word)),
            ("list_skipping", |word, out| {
                Library.list_skipping(word, out)
            }),
        ],
    ),
    (
        "count_full",
        &[
            ("library", |word, _| Library.count_full(word)),
            ("list_full", |word, out| Library.list_full(word, out)),
        ],
    ),
    (
        "count_full_scaled",
        &[
            ("library", |word, _| Library.count_full_scaled(word)),
            ("list_full_scaled", |word, out| {
                Library.list_full_scaled(word, out)
            }),
        ],
    ),
    (
        "count_squares",
        &[
            ("library", |word, _| Library.count_squares(word)),
            ("list_squares", |word, out| Library.list_squares(word, out)),
        ],
    ),
    (
        "count_runs",
        &[
            ("library", |word, _| Library.count_runs(word)),
            ("list_runs", |word, out| Library.list_runs(word, out)),
        ],
    ),
    (
        "count_report",
        &[
            ("library", |word, _| Library.count_report(word)),
            ("report", |word, out| Library.report(word, out)),
        ],
    ),
];

/// Times a function for each of a call's words and each size.
fn over_words(call: &str, time: impl Fn(&[u8]) -> Vec<f64>) -> Vec<(String, Vec<Vec<f64>>)> {
    let sizes = |word: Word| SIZES.iter().map(|&n| time(&word(n))).collect();
    let words = timed_words(call).into_iter();
    let timed = words.map(|(name, word)| (name.to_string(), sizes(word)));
    timed.collect()
}

/// A slice for any list, with places enough that a report is not counted before it is written.
fn places() -> Vec<u32> {
    vec![0; MOST_REPORT]
}

/// Times a call on words, beside its peers.
pub fn time_word_call(call: &WordCall) -> Timed {
    time_contenders(call, assert_calls_agree)
}

/// Times a count on words, beside its list.
pub fn time_count(count: &WordCall) -> Timed {
    time_contenders(count, assert_counts_what_is_written)
}

/// Times all contenders on words of which they were asserted to agree.
fn time_contenders(&(call, contenders): &WordCall, assert_agree: AssertAgree) -> Timed {
    let time = |word: &[u8]| {
        assert_agree(contenders, word);
        let turn = |&(_, caller): &(&str, WordCaller)| -> Turn<'_> {
            let mut out = places();
            repeated(move || caller(black_box(word), black_box(&mut out)))
        };
        best(contenders.iter().map(turn).collect())
    };
    Timed {
        call,
        contenders: contenders.iter().map(|&(name, _)| name).collect(),
        words: over_words(call, time),
    }
}

/// All contenders give the same numbers and words.
fn assert_calls_agree(contenders: &[(&'static str, WordCaller)], word: &[u8]) {
    let run = |caller: WordCaller| {
        let mut out = places();
        (caller(word, &mut out), out)
    };
    let due = run(contenders[0].1);
    for &(name, caller) in contenders {
        assert!(
            run(caller) == due,
            "{name} disagrees on {}",
            word.escape_ascii()
        );
    }
}

/// A count's number is what the list writes.
fn assert_counts_what_is_written(contenders: &[(&'static str, WordCaller)], word: &[u8]) {
    let run = |(_, caller): (&str, WordCaller)| caller(word, &mut places());
    let (counted, listed) = (run(contenders[0]), run(contenders[1]));
    assert_eq!(counted, Answer::of_words(listed.written));
    assert_eq!(listed.number, 0);
}

/// Times the judge on the first Abelian period of a word, of which it reads every block.
pub fn time_judge() -> Timed {
    let time = |word: &[u8]| {
        let mut out = places();
        let listed = Library.list_plain(word, &mut out);
        let first = findings(&out[..listed.written]).next();
        let Some(Finding::Period { head, period }) = first else {
            panic!("a word with letters has an Abelian period");
        };
        assert_eq!(Library.judge(word, head, period).yes, 1);
        best(vec![repeated(move || {
            Library.judge(black_box(word), black_box(head), black_box(period))
        })])
    };
    Timed {
        call: "judge",
        contenders: vec!["library"],
        words: over_words("judge", time),
    }
}

/// A tracker to which the letters were added.
fn tracked(letters: &[u8]) -> Fields {
    let mut tracker = Fields::zero();
    for &letter in letters {
        assert_eq!(Library.add(&mut tracker, letter), Answer::default());
    }
    tracker
}

fn on_line(letters: &[u8]) -> OnLine {
    let mut tracker = OnLine::fresh();
    for &letter in letters {
        assert_eq!(tracker.add(letter), Answer::default());
    }
    tracker
}

/// Times the add of a word's last letter.
pub fn time_adds() -> Timed {
    let time = |word: &[u8]| {
        let (&last, before) = word.split_last().expect("a letter");
        assert_adds_agree(word);
        best(vec![
            on_copies(tracked(before), move |tracker: &mut Fields| {
                Library.add(tracker, last)
            }),
            on_copies(tracked(before), move |tracker: &mut Fields| {
                add_in_place(tracker, last)
            }),
            on_copies(on_line(before), move |tracker: &mut OnLine| {
                tracker.add(last)
            }),
        ])
    };
    Timed {
        call: "add",
        contenders: vec!["library", "in place", "004, on-line"],
        words: over_words("add", time),
    }
}

/// All contenders leave the same tracker.
fn assert_adds_agree(word: &[u8]) {
    let due = tracked(word);
    let (&last, before) = word.split_last().expect("a letter");
    let mut in_place = tracked(before);
    assert_eq!(add_in_place(&mut in_place, last), Answer::default());
    assert!(
        in_place == due,
        "in place disagrees on {}",
        word.escape_ascii()
    );
    let on_line = on_line(word);
    assert!(
        on_line.board == due.board && on_line.bytes == due.bytes,
        "on-line disagrees"
    );
}

/// What else is timed of a tracker that holds 240 letters.
pub const TRACKER_CALLS: [&str; 8] = [
    "`take_back`",
    "`list`",
    "`count`",
    "`fresh`",
    "`clear`",
    "`replay`",
    "`add`, refused",
    "a copy in Rust",
];

/// For each word, a time for each of these.
pub struct Trackers {
    pub words: Vec<(&'static str, Vec<f64>)>,
}

impl Trackers {
    /// The better of two passes, time by time.
    pub fn better(mut self, other: &Trackers) -> Trackers {
        for ((_, times), (_, others)) in self.words.iter_mut().zip(&other.words) {
            lower(times, others);
        }
        self
    }
}

/// Times the other calls on a tracker that holds a word of 240 letters.
pub fn time_trackers() -> Trackers {
    let time = |&(name, word): &(&'static str, Word)| (name, time_tracker(&word(LONGEST)));
    Trackers {
        words: TIMED_WORDS.iter().map(time).collect(),
    }
}

fn time_tracker(word: &[u8]) -> Vec<f64> {
    let full = tracked(word);
    let listed = Library.list(&full, &mut places());
    assert_eq!(Library.count(&full), listed);
    let (mut out, mut replayed) = (places(), places());
    let (mut refusing, mut copied) = (full.clone(), full.clone());
    let (mut fresh, mut cleared, mut made) = (full.clone(), full.clone(), full.clone());
    best(vec![
        on_copies(full.clone(), |tracker: &mut Fields| {
            Library.take_back(tracker)
        }),
        repeated(|| Library.list(black_box(&full), black_box(&mut out))),
        repeated(|| Library.count(black_box(&full))),
        repeated(|| Library.fresh(black_box(&mut fresh))),
        repeated(|| Library.clear(black_box(&mut cleared))),
        repeated(|| Library.replay(black_box(&mut made), black_box(word), &mut replayed)),
        repeated(|| Library.add(black_box(&mut refusing), NOT_A_LETTER)),
        repeated(|| black_box(&mut copied).clone_from(black_box(&full))),
    ])
}

/// How many pairs the two listers try of each word of 240 letters, and how many Abelian periods it has.
pub fn trials() -> Vec<(&'static str, [usize; 3])> {
    let tried = |&(name, word): &(&'static str, Word)| {
        let (word, mut out) = (word(LONGEST), places());
        let plain = Library.list_plain(&word, &mut out);
        let skipping = Library.list_skipping(&word, &mut out);
        (name, [plain.trials, skipping.trials, plain.written])
    };
    TIMED_WORDS.iter().map(tried).collect()
}

/// How many Abelian runs each word of 240 letters has.
pub fn numbers_of_runs() -> Vec<(&'static str, usize)> {
    let runs = |(name, word): (&'static str, Word)| {
        let listed = Library.list_runs(&word(LONGEST), &mut places());
        (name, listed.written / 2)
    };
    timed_words("list_runs").into_iter().map(runs).collect()
}
