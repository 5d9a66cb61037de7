//! The tables, as markdown.
use crate::contenders::{numbers_of_runs, trials, Trackers, TRACKER_CALLS};
use crate::square_free::{number_of_words, LENGTHS};
use crate::windows::{numbers_of_windows, RECORDS};
use crate::Times;
use checks::markdown::{header, row, three_digits};
use checks::measure::{mean, Timed, SIZES};
use luffbutton::Length;
use std::fmt::Write;

/// All tables: a summary of the calls and one of the counts, one for each of both, the tracker's other calls, those of windows, and that of
/// square-free words.
pub fn markdown(times: &Times) -> String {
    let mut text = String::new();
    text.push_str("Geometric means over the seven words, of runs over these and `abba` repeated, of the report over the six that are not of one letter. Time: microseconds of the library's call. Ratio: its time divided by the peer's. `judge` is asked about the word's first Abelian period.\n\n");
    summary(&mut text, "peer", &times.calls);
    text.push_str("The same of the counts, each beside the library's own list, whose words it counts. Ratio: the count's time divided by the list's.\n\n");
    summary(&mut text, "list", &times.counts);
    for timed in times.calls.iter().chain(&times.counts) {
        call_table(&mut text, timed, "word", &SIZES);
    }
    tracker_table(&mut text, &times.trackers);
    trials_table(&mut text);
    runs_table(&mut text);
    text.push('\n');
    text.push_str(&of_windows(&times.windows));
    text.push('\n');
    text.push_str(&of_square_free(&times.square_free));
    text
}

/// The tables of windows: a summary, one for each call, and how many windows there are.
pub fn of_windows(all: &[Timed]) -> String {
    let mut text = String::new();
    text.push_str("Windows of a pattern of m letters in a record of n letters. There is a random record of 65,536 letters for each number of letters; the shorter records are its parts, called in turn, and the pattern is cut out of its middle. Geometric means over the twelve patterns. Time: microseconds of the library's call. Ratio: its time divided by the peer's. `list_windows` is lent 65,536 places, or just as many as there are windows where that is said.\n\n");
    windows_summary(&mut text, all);
    for timed in all {
        call_table(&mut text, timed, "pattern, record", &RECORDS);
    }
    windows_table(&mut text);
    text
}

/// The table of square-free words: for each call and each length the times of the library and of its peer, how many times the peer's the
/// library's is, and how many words there are.
pub fn of_square_free(all: &[Timed]) -> String {
    let mut text = String::new();
    text.push_str("Square-free words of n letters over the first 4. Times: microseconds of one call. Ratio: the library's time divided by the peer's. `list_square_free` is lent just as many places as there are words.\n\n");
    let cells = ["call", "peer", "n", "words", "library", "peer's", "ratio"];
    header(&mut text, &cells.map(str::to_string));
    for timed in all {
        for (size, &n) in LENGTHS.iter().enumerate() {
            let mut cells = vec![format!("`{}`", timed.call), timed.contenders[1].to_string()];
            cells.extend([n, number_of_words(Length(n))].map(|number| number.to_string()));
            let times = [
                timed.mean(size, 0),
                timed.mean(size, 1),
                timed.ratio(size, 1),
            ];
            cells.extend(times.map(three_digits));
            row(&mut text, &cells);
        }
    }
    text
}

/// By which power of n the time grows from one size to the other.
fn growth(sizes: [usize; 2], from: f64, to: f64) -> String {
    let [smaller, greater] = sizes.map(|n| n as f64);
    format!("{:.1}", (to / from).ln() / (greater / smaller).ln())
}

/// The last two sizes.
fn last_two(sizes: &[usize]) -> [usize; 2] {
    let last = sizes.last_chunk().expect("two sizes");
    *last
}

/// For each call and each peer, or list: the library's time at each size, how many times the peer's it is, and how it grows.
fn summary(text: &mut String, peer: &str, all: &[Timed]) {
    let mut cells = vec!["call".to_string(), peer.to_string()];
    cells.extend(SIZES.map(|n| format!("time, n = {n}")));
    cells.extend(SIZES.map(|n| format!("ratio, n = {n}")));
    cells.push("time grows from 120 to 240 as n to the power".to_string());
    header(text, &cells);
    for timed in all {
        let peers = 1.max(timed.contenders.len() - 1);
        for peer in 1..=peers {
            row(text, &summary_row(timed, peer));
        }
    }
    text.push('\n');
}

fn summary_row(timed: &Timed, peer: usize) -> Vec<String> {
    let sizes = || 0..SIZES.len();
    let name = timed.contenders.get(peer);
    let mut cells = vec![
        format!("`{}`", timed.call),
        name.unwrap_or(&"none").to_string(),
    ];
    cells.extend(sizes().map(|size| three_digits(timed.mean(size, 0))));
    cells.extend(sizes().map(|size| match name {
        Some(_) => three_digits(timed.ratio(size, peer)),
        None => String::new(),
    }));
    cells.push(growth(last_two(&SIZES), timed.mean(2, 0), timed.mean(3, 0)));
    cells
}

/// One call's times for each word and size: the contenders' times one behind the other, and how they grow between the last two sizes.
fn call_table(text: &mut String, timed: &Timed, word: &str, sizes: &[usize]) {
    let names = timed.contenders.join(" / ");
    writeln!(text, "`{}`, microseconds: {names}.\n", timed.call).expect("text takes any line");
    let mut cells = vec![word.to_string()];
    cells.extend(sizes.iter().map(|n| format!("n = {n}")));
    let last = last_two(sizes);
    cells.push(last.map(|n| n.to_string()).join(" to "));
    header(text, &cells);
    for (word, times) in &timed.words {
        let mut cells = vec![word.to_string()];
        for times in times {
            let times: Vec<String> = times.iter().map(|&time| three_digits(time)).collect();
            cells.push(times.join(" / "));
        }
        let [.., from, to] = &times[..] else {
            panic!("two sizes");
        };
        let growths = from.iter().zip(to);
        let growths: Vec<String> = growths.map(|(&from, &to)| growth(last, from, to)).collect();
        cells.push(growths.join(" / "));
        row(text, &cells);
    }
    text.push('\n');
}

/// For each call on a pattern and a record and each peer: the library's time for each length of a record, how many times the peer's it is,
/// also over all lengths, and how it grows.
fn windows_summary(text: &mut String, all: &[Timed]) {
    let last = last_two(&RECORDS);
    let mut cells = vec!["call".to_string(), "peer".to_string()];
    cells.extend(RECORDS.map(|n| format!("time, n = {n}")));
    cells.extend(RECORDS.map(|n| format!("ratio, n = {n}")));
    cells.push("ratio, all".to_string());
    let growing = last.map(|n| n.to_string()).join(" to ");
    cells.push(format!("time grows from {growing} as n to the power"));
    header(text, &cells);
    let sizes = || 0..RECORDS.len();
    for timed in all {
        for (peer, name) in timed.contenders.iter().enumerate().skip(1) {
            let mut cells = vec![format!("`{}`", timed.call), name.to_string()];
            cells.extend(sizes().map(|size| three_digits(timed.mean(size, 0))));
            cells.extend(sizes().map(|size| three_digits(timed.ratio(size, peer))));
            let over_all = mean(sizes().map(|size| timed.ratio(size, peer)));
            cells.push(three_digits(over_all));
            let [from, to] = [RECORDS.len() - 2, RECORDS.len() - 1];
            cells.push(growth(last, timed.mean(from, 0), timed.mean(to, 0)));
            row(text, &cells);
        }
    }
    text.push('\n');
}

/// How many windows there are.
fn windows_table(text: &mut String) {
    text.push_str("Windows in the record of 65,536 letters.\n\n");
    header(text, &["pattern, record", "windows"].map(str::to_string));
    for (name, windows) in numbers_of_windows() {
        row(text, &[name, windows.to_string()]);
    }
}

/// The other calls of a tracker of 240 letters.
fn tracker_table(text: &mut String, full: &Trackers) {
    text.push_str("A tracker of 240 letters, microseconds of the library's calls; `replay` adds all 240 and lists.\n\n");
    let mut cells = vec!["word".to_string()];
    cells.extend(TRACKER_CALLS.map(str::to_string));
    header(text, &cells);
    for (word, times) in &full.words {
        let mut cells = vec![word.to_string()];
        cells.extend(times.iter().map(|&time| three_digits(time)));
        row(text, &cells);
    }
}

/// How many pairs the listers try.
fn trials_table(text: &mut String) {
    text.push_str("\nPairs tried of a word of 240 letters, and its Abelian periods.\n\n");
    let names = ["word", "`list_plain`", "`list_skipping`", "periods"];
    header(text, &names.map(str::to_string));
    for (word, numbers) in trials() {
        let mut cells = vec![word.to_string()];
        cells.extend(numbers.map(|number| number.to_string()));
        row(text, &cells);
    }
}

/// How many runs the words have.
fn runs_table(text: &mut String) {
    text.push_str("\nAbelian runs of a word of 240 letters.\n\n");
    header(text, &["word", "runs"].map(str::to_string));
    for (word, runs) in numbers_of_runs() {
        row(text, &[word.to_string(), runs.to_string()]);
    }
}
