//! Times the library's lists, counts and tracker calls beside those of an older archive, on the same words of 240 letters, in one run and in turns. The script
//! `rust/turns` renames the functions of both archives, builds this with the feature `before` and runs it:
//!
//!     rust/turns OLD_ARCHIVE
//!
//! prints a table. Both archives' answers, lists and trackers are asserted to be the same before a call is timed, but for the full period n,
//! which archives from before request C-18 have, and for a tracker's totals, which those from before C-19 have not. A word with letters that the older archive does not have is timed on this one alone.
#![deny(unsafe_code)]

mod archives;

use archives::{Archive, CountCall, ListCall, BOTH, COUNTS, LISTS, REPORT};
use checks::calls::Answer;
use checks::generator::{timed_words, Word};
use checks::markdown::{header, row, three_digits};
use checks::measure::{best, better, mean, on_copies, over_passes, repeated, Timed, Turn};
use luffbutton::{Fields, LONGEST, MOST_REPORT};
use std::cell::RefCell;
use std::hint::black_box;

fn main() {
    print(&over_passes(pass, |all, others| better(all, others)));
}

/// Times every call once.
fn pass() -> Vec<Timed> {
    let list = |(name, list)| over_words(name, |word| time_list(list, word, ENOUGH));
    let mut all: Vec<Timed> = LISTS.into_iter().map(list).collect();
    all.push(over_words("report, as many places as it needs", |word| {
        let needed = |archive: &Archive| REPORT(archive, word, &mut places()).written;
        let most = readers(word).iter().map(needed).max();
        time_list(REPORT, word, most.unwrap_or(0))
    }));
    let count = |((name, count), (_, list))| over_words(name, |word| time_count(count, list, word));
    all.extend(COUNTS.into_iter().zip(LISTS).map(count));
    all.push(over_words("add of the last letter", time_add));
    all.push(over_words("take_back", time_take_back));
    all.push(over_words("list", time_tracker_list));
    all.push(over_words("count", time_tracker_count));
    all.push(over_words("replay", time_replay));
    all
}

/// Times a call on each of its words.
fn over_words(call: &'static str, time: impl Fn(&[u8]) -> Vec<f64>) -> Timed {
    let timed = |(name, word): (&str, Word)| (name.to_string(), vec![time(&word(LONGEST))]);
    Timed {
        call,
        contenders: vec!["after", "before"],
        words: timed_words(call).into_iter().map(timed).collect(),
    }
}

/// Places enough for any list, so many that no archive counts a report before it is written: one from before request C-18 asks for one more
/// than this one does.
const ENOUGH: usize = MOST_REPORT + 1;

/// A slice for any list.
fn places() -> Vec<u32> {
    vec![0; ENOUGH]
}

/// The archives that read the word: both, or this one alone where the older one has fewer letters.
fn readers(word: &[u8]) -> &'static [Archive] {
    let [after, before] = &BOTH;
    assert!(after.reads(word), "{}", word.escape_ascii());
    if before.reads(word) {
        &BOTH
    } else {
        &BOTH[..1]
    }
}

/// The best times of the archives that read the word.
fn time_readers<'a>(word: &[u8], turn: impl Fn(&'static Archive) -> Turn<'a>) -> Vec<f64> {
    best(readers(word).iter().map(turn).collect())
}

/// Asserts that the archives that read the word give the same.
fn assert_same<T: PartialEq>(word: &[u8], given: impl Fn(&Archive) -> T) {
    let mut all = readers(word).iter().map(given);
    let after = all.next();
    let same = all.all(|before| Some(before) == after);
    assert!(same, "they differ on {}", word.escape_ascii());
}

/// A list call's answer and words, without the full period n.
fn given(archive: &Archive, list: ListCall, word: &[u8], places: usize) -> (Answer, Vec<u32>) {
    let mut out = vec![0; places];
    let mut answer = list(archive, word, &mut out);
    let whole = (3 << 28) + ((word.len() as u32) << 14) + 1;
    out.truncate(answer.written);
    out.retain(|&x| x != whole);
    answer.written = out.len();
    (answer, out)
}

/// Times a list call. The archives share the slice, so that it lies alike for both.
fn time_list(list: ListCall, word: &[u8], places: usize) -> Vec<f64> {
    assert_same(word, |archive| given(archive, list, word, places));
    let out = RefCell::new(vec![0; places]);
    time_readers(word, |archive| {
        let out = &out;
        repeated(move || list(archive, black_box(word), black_box(&mut out.borrow_mut())))
    })
}

/// Times a count. Each archive's is asserted to be the number of words that its own list has.
fn time_count(count: CountCall, list: ListCall, word: &[u8]) -> Vec<f64> {
    for archive in readers(word) {
        let listed = list(archive, word, &mut places());
        assert_eq!(count(archive, word).words, listed.written);
    }
    time_readers(word, |archive| {
        repeated(move || count(archive, black_box(word)))
    })
}

/// A tracker to which the letters were added, by this archive.
fn tracked(letters: &[u8]) -> Fields {
    let mut tracker = Fields::zero();
    for &letter in letters {
        assert_eq!(BOTH[0].add(&mut tracker, letter).refusal, 0);
    }
    tracker
}

/// What is compared of a tracker: all of it, or all but the totals where the older archive has none.
fn compared(mut tracker: Fields) -> Fields {
    if !BOTH.iter().all(Archive::has_totals) {
        (tracker.live, tracker.ended) = (0, 0);
    }
    tracker
}

/// A tracker that begins where a line of the cache does, so that both archives' copies lie alike.
#[derive(Clone)]
#[repr(align(64))]
struct Aligned(Fields);

/// Times a call that changes its tracker.
fn time_change<T: PartialEq>(
    word: &[u8],
    start: Fields,
    change: impl Fn(&Archive, &mut Fields) -> T,
) -> Vec<f64> {
    assert_same(word, |archive| {
        let mut tracker = start.clone();
        (change(archive, &mut tracker), compared(tracker))
    });
    time_readers(word, |archive| {
        let (start, change) = (Aligned(start.clone()), &change);
        on_copies(start, move |tracker| change(archive, &mut tracker.0))
    })
}

fn time_add(word: &[u8]) -> Vec<f64> {
    let (&last, letters) = word.split_last().expect("a letter");
    time_change(word, tracked(letters), |archive, tracker| {
        archive.add(tracker, last)
    })
}

fn time_take_back(word: &[u8]) -> Vec<f64> {
    time_change(word, tracked(word), Archive::take_back)
}

fn time_tracker_list(word: &[u8]) -> Vec<f64> {
    let tracker = tracked(word);
    assert_same(word, |archive| {
        let mut out = places();
        (archive.list(&tracker, &mut out), out)
    });
    let out = RefCell::new(places());
    time_readers(word, |archive| {
        let (tracker, out) = (&tracker, &out);
        repeated(move || archive.list(black_box(tracker), black_box(&mut out.borrow_mut())))
    })
}

fn time_tracker_count(word: &[u8]) -> Vec<f64> {
    let tracker = tracked(word);
    assert_same(word, |archive| archive.count(&tracker));
    time_readers(word, |archive| {
        let tracker = &tracker;
        repeated(move || archive.count(black_box(tracker)))
    })
}

/// Times a replay that adds the word's letters and lists once.
fn time_replay(word: &[u8]) -> Vec<f64> {
    let lent = || (Fields::zero(), places());
    assert_same(word, |archive| {
        let (mut tracker, mut out) = lent();
        let answer = archive.replay(&mut tracker, word, &mut out);
        (answer, compared(tracker), out)
    });
    let lent = RefCell::new(lent());
    time_readers(word, |archive| {
        let lent = &lent;
        repeated(move || {
            let (tracker, out) = &mut *lent.borrow_mut();
            archive.replay(black_box(tracker), black_box(word), black_box(out))
        })
    })
}

/// A row for each call: the times and their ratio for each word, then the mean of the ratios; and last the mean over the calls.
fn print(all: &[Timed]) {
    let words = timed_words("list_runs");
    let mut text = String::new();
    let mut cells = vec!["call".to_string()];
    cells.extend(words.iter().map(|(name, _)| name.to_string()));
    cells.push("mean".to_string());
    header(&mut text, &cells);
    for timed in all {
        let mut cells = vec![format!("`{}`", timed.call)];
        cells.extend(words.iter().map(|&(name, _)| cell_of(timed, name)));
        cells.push(ratio(timed.ratio(0, 1)));
        row(&mut text, &cells);
    }
    let over_calls = mean(all.iter().map(|timed| timed.ratio(0, 1)));
    println!("Words of {LONGEST} letters: microseconds before / after, and after divided by before; one time alone is that after, of a word that the older archive refuses. Mean: the geometric mean of the ratios.\n");
    println!(
        "{text}\nGeometric mean over the calls: {}",
        ratio(over_calls)
    );
}

/// What a call took on the word of this name; nothing where it was not timed there.
fn cell_of(timed: &Timed, name: &str) -> String {
    let found = timed.words.iter().find(|(word, _)| word == name);
    found.map_or_else(String::new, |(_, sizes)| cell(&sizes[0]))
}

/// The times of one word, the older archive's first, and their ratio; or the time of this archive alone.
fn cell(times: &[f64]) -> String {
    let &[after, before] = times else {
        return three_digits(times[0]);
    };
    let times = [before, after].map(three_digits).join(" / ");
    format!("{times}, {}", ratio(after / before))
}

fn ratio(value: f64) -> String {
    format!("{value:.3}")
}
