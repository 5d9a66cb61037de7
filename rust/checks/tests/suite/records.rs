//! Reads the records of wide.txt, letters.txt, runs.txt, windows.txt, reports.txt and square_free.txt in tests/data. Lines that begin with #
//! say how they are written.
use checks::calls::Answer;
use checks::reference::{in_range, pairs, Pair, Run};
use luffbutton::{Alphabet, Fields, Head, Length, Period, BOARD, LONGEST};
use std::collections::HashMap;

/// The outside vectors, and behind them rows of our own in the same form. The numbers of lines go on.
const TEXT: &str = concat!(
    include_str!("../data/wide.txt"),
    include_str!("../data/letters.txt")
);
const RUNS: &str = include_str!("../data/runs.txt");
const WINDOWS: &str = include_str!("../data/windows.txt");
const REPORTS: &str = include_str!("../data/reports.txt");
const SQUARE_FREE: &str = include_str!("../data/square_free.txt");

/// What a report writes and answers.
pub struct Reported {
    pub words: Vec<u32>,
    pub answer: Answer,
}

/// A word with everything that document 01 defines of it, over the letters of request C-16; the report's head is that of C-14, and the full
/// periods are those of C-18.
pub struct WordRecord {
    pub word: Vec<u8>,
    pub plain_trials: usize,
    pub skipping_trials: usize,
    pub s: usize,
    pub t: usize,
    pub full: Vec<usize>,
    pub periods: Vec<Pair>,
    /// Half length and start.
    pub squares: Vec<(usize, usize)>,
    /// Every cover length. The smallest is answered.
    pub covers: Vec<usize>,
    pub board: [u8; BOARD],
    /// The block and the letter of the judge's first failure, by head and period.
    pub failures: HashMap<(usize, usize), (usize, usize)>,
    pub report: Reported,
}

/// A word that every call refuses, with number and value.
pub struct RefusedRecord {
    pub word: Vec<u8>,
    pub answer: Answer,
}

/// A pair that the judge refuses.
pub struct RangeRecord {
    pub word: Vec<u8>,
    pub head: Head,
    pub period: Period,
    pub answer: Answer,
}

/// A tracker call. The records have no counts.
#[derive(Clone, Copy, Debug)]
pub enum Call {
    Add(u8),
    TakeBack,
    Clear,
    /// With so many places.
    List(usize),
    Count,
}

/// A tracker call and what it answers; for a list, the words too.
pub struct Answered {
    pub call: Call,
    pub answer: Answer,
    pub words: Vec<u32>,
}

/// Calls on a tracker, and its fields before and afterwards: from a fresh tracker, or one call on a tracker that no calls have made.
pub struct CallsRecord {
    pub line: usize,
    pub before: Fields,
    pub calls: Vec<Answered>,
    pub after: Fields,
}

/// A word and its Abelian runs.
pub struct RunsRecord {
    pub word: Vec<u8>,
    pub runs: Vec<Run>,
}

/// A pattern, a record and the starts of the pattern's windows in it.
pub struct WindowsRecord {
    pub pattern: Vec<u8>,
    pub record: Vec<u8>,
    pub starts: Vec<usize>,
}

/// A word and its report.
pub struct ReportRecord {
    pub word: Vec<u8>,
    pub report: Reported,
}

/// An alphabet, a length and the numbers of the square-free words.
pub struct SquareFreeRecord {
    pub alphabet: Alphabet,
    pub length: Length,
    pub numbers: Vec<usize>,
}

/// All records of both files, by kind.
#[derive(Default)]
pub struct Records {
    pub words: Vec<WordRecord>,
    pub refused: Vec<RefusedRecord>,
    pub ranges: Vec<RangeRecord>,
    pub histories: Vec<CallsRecord>,
    pub made: Vec<CallsRecord>,
}

/// A line: its number, its first word, and the rest.
type Line = (usize, &'static str, &'static str);

fn numbers(text: &str) -> Vec<usize> {
    let number = |x: &str| x.parse().unwrap_or_else(|_| panic!("{x} is no number"));
    text.split_whitespace().map(number).collect()
}

/// Of `1,2,a 3,4,b`: the numbers of each part, a letter by its byte.
fn parts(text: &str) -> Vec<Vec<usize>> {
    let number = |x: &str| x.parse().unwrap_or_else(|_| usize::from(x.as_bytes()[0]));
    let part = |x: &str| x.split(',').map(number).collect();
    text.split_whitespace().map(part).collect()
}

/// The two sides of an arrow: the text before it, and the numbers behind it.
fn sides(text: &'static str) -> (&'static str, Vec<usize>) {
    let (left, right) = text.split_once("->").expect("an arrow");
    (left.trim(), numbers(right))
}

/// The answer of a refusal, or of a call that is accepted without numbers.
fn answer(numbers: &[usize]) -> Answer {
    Answer {
        number: numbers[0],
        value: numbers[1],
        ..Answer::default()
    }
}

fn word(text: &str) -> Vec<u8> {
    let text = if text == "-" { "" } else { text };
    text.as_bytes().to_vec()
}

/// The place of each pair on a board.
fn places() -> HashMap<(usize, usize), usize> {
    let key = |pair: Pair| (pair.head.0, pair.period.0);
    let all = pairs(LONGEST).into_iter().enumerate();
    all.map(|(place, pair)| (key(pair), place)).collect()
}

/// The words of a list by their numbers.
fn output_words(numbers: &[usize]) -> Vec<u32> {
    numbers.iter().map(|&x| x as u32).collect()
}

/// Drops the full period n, by the number that stands for it. The files are from before request C-18: of every word but the empty one they have
/// it just once, and it is no full period any more.
fn drop_whole_word(word: &[u8], numbers: &mut Vec<usize>, whole: usize) {
    let before = numbers.len();
    numbers.retain(|&number| number != whole);
    let dropped = before - numbers.len();
    assert_eq!(dropped, word.len().min(1), "{}", word.escape_ascii());
}

/// The full periods of a word.
fn full(word: &[u8], mut periods: Vec<usize>) -> Vec<usize> {
    drop_whole_word(word, &mut periods, word.len());
    periods
}

/// What the report of a word writes and answers, from the numbers of its words. The files are from before request C-17: of two or more equal
/// letters their line stands for refusal 10.
fn reported(word: &[u8], mut numbers: Vec<usize>) -> Reported {
    if word.len() >= 2 && word.iter().all(|&letter| letter == word[0]) {
        let (words, answer) = (Vec::new(), Answer::refused(10, 0));
        return Reported { words, answer };
    }
    drop_whole_word(word, &mut numbers, (3 << 28) + (word.len() << 14) + 1);
    Reported {
        words: output_words(&numbers),
        answer: Answer::of_words(numbers.len()),
    }
}

/// A board from its entries that are not 0: head, period, entry.
fn board(text: &str) -> [u8; BOARD] {
    let places = places();
    let mut board = [0; BOARD];
    for part in parts(text) {
        board[places[&(part[0], part[1])]] = part[2] as u8;
    }
    board
}

fn word_record(lines: &[Line]) -> WordRecord {
    let rows: HashMap<&str, &str> = lines
        .iter()
        .map(|&(_, first, rest)| (first, rest))
        .collect();
    let (trials, scaled) = (numbers(rows["trials"]), numbers(rows["scaled"]));
    let pair = |x: Vec<usize>| Pair {
        head: Head(x[0]),
        period: Period(x[1]),
    };
    let failure = |x: Vec<usize>| ((x[0], x[1]), (x[2], x[3]));
    let word = word(rows["word"]);
    WordRecord {
        report: reported(&word, numbers(rows["report"])),
        full: full(&word, numbers(rows["full"])),
        word,
        plain_trials: trials[0],
        skipping_trials: trials[1],
        s: scaled[0],
        t: scaled[1],
        periods: parts(rows["period"]).into_iter().map(pair).collect(),
        squares: parts(rows["square"]).iter().map(|x| (x[0], x[1])).collect(),
        covers: numbers(rows["cover"]),
        board: board(rows["ended"]),
        failures: parts(rows["judge"]).into_iter().map(failure).collect(),
    }
}

fn refused_record(rest: &'static str) -> RefusedRecord {
    let (bytes, due) = sides(rest);
    RefusedRecord {
        word: numbers(bytes).iter().map(|&byte| byte as u8).collect(),
        answer: answer(&due),
    }
}

fn range_record(rest: &'static str) -> RangeRecord {
    let (left, due) = sides(rest);
    let left: Vec<&str> = left.split_whitespace().collect();
    RangeRecord {
        word: word(left[0]),
        head: Head(numbers(left[1])[0]),
        period: Period(numbers(left[2])[0]),
        answer: answer(&due),
    }
}

fn answered(line: &Line) -> Answered {
    let &(_, name, rest) = line;
    let (left, due) = sides(rest);
    let argument = || numbers(left)[0];
    let call = match name {
        "add" => Call::Add(argument() as u8),
        "back" => Call::TakeBack,
        "clear" => Call::Clear,
        "list" => Call::List(argument()),
        other => panic!("{other} is no call"),
    };
    let words = output_words(&due[2..]);
    Answered {
        call,
        answer: Answer {
            written: words.len(),
            ..answer(&due)
        },
        words,
    }
}

/// Sets the totals that an accepted add, take-back or clear leaves, by the entries of the pairs in range. The files are from before request C-19,
/// and have none.
fn set_totals(fields: &mut Fields) {
    let all = fields.board.iter().zip(pairs(LONGEST));
    let entries = all.filter_map(|(&entry, pair)| in_range(fields.length, pair).then_some(entry));
    let (live, ended): (Vec<u8>, Vec<u8>) = entries.partition(|&entry| entry == 0);
    (fields.live, fields.ended) = (live.len(), ended.len());
}

/// A tracker that holds the letters, with the entries.
fn holding(letters: &str, entries: &str) -> Fields {
    let mut fields = Fields::zero();
    fields.length = letters.len();
    fields.bytes[..letters.len()].copy_from_slice(letters.as_bytes());
    fields.board = board(entries);
    set_totals(&mut fields);
    fields
}

fn history_record(lines: &[Line]) -> CallsRecord {
    let [(line, ..), calls @ .., (_, "holds", letters), (_, "board", entries)] = lines else {
        panic!("line {}: no history", lines[0].0);
    };
    CallsRecord {
        line: *line,
        before: Fields::zero(),
        calls: calls.iter().map(answered).collect(),
        after: holding(letters, entries),
    }
}

/// A tracker by its fields: the length, the bytes that are not 0 by place, the entries that are not 0 by pair; and totals that no board has.
fn fields(text: &str) -> Fields {
    let columns: Vec<&str> = text.split('|').collect();
    let mut fields = Fields::zero();
    fields.length = numbers(columns[0])[0];
    for part in parts(columns[1]) {
        fields.bytes[part[0]] = part[1] as u8;
    }
    fields.board = board(columns[2]);
    (fields.live, fields.ended) = (BOARD + 1, BOARD + 2);
    fields
}

fn made_record(lines: &[Line]) -> CallsRecord {
    let [(line, _, before), call, (_, "after", after)] = lines else {
        panic!("line {}: no made tracker", lines[0].0);
    };
    let (answered, mut after) = (answered(call), fields(after));
    if answered.answer.number == 0 && !matches!(answered.call, Call::List(_)) {
        set_totals(&mut after);
    }
    CallsRecord {
        line: *line,
        before: fields(before),
        calls: vec![answered],
        after,
    }
}

/// The lines of both files, a group for each record: a record begins at a line with one of the five first words.
fn groups() -> Vec<Vec<Line>> {
    let mut groups: Vec<Vec<Line>> = Vec::new();
    for (number, line) in (1..).zip(TEXT.lines()) {
        if line.starts_with('#') {
            continue;
        }
        let (first, rest) = line.split_once(' ').unwrap_or((line, ""));
        if matches!(
            first,
            "word" | "refused" | "judge-range" | "history" | "made"
        ) {
            groups.push(Vec::new());
        }
        let group = groups.last_mut().expect("a record's first line");
        group.push((number, first, rest));
    }
    groups
}

/// Reads both files.
pub fn read() -> Records {
    let mut records = Records::default();
    for lines in groups() {
        let (_, first, rest) = lines[0];
        match first {
            "word" => records.words.push(word_record(&lines)),
            "refused" => records.refused.push(refused_record(rest)),
            "judge-range" => records.ranges.push(range_record(rest)),
            "history" => records.histories.push(history_record(&lines)),
            _ => records.made.push(made_record(&lines)),
        }
    }
    records
}

/// The lines of a file that has one record in each.
fn records(text: &'static str) -> impl Iterator<Item = &'static str> {
    text.lines().filter(|line| !line.starts_with('#'))
}

fn runs_record(line: &str) -> RunsRecord {
    let sides = line.strip_prefix("runs ").and_then(|x| x.split_once(" ->"));
    let (letters, listed) = sides.expect("a word, an arrow, its runs");
    let run = |numbers: Vec<usize>| {
        let [d, i, j, left, right] = numbers[..] else {
            panic!("{numbers:?} is no run");
        };
        Run {
            d,
            i,
            j,
            left,
            right,
        }
    };
    RunsRecord {
        word: word(letters),
        runs: parts(listed).into_iter().map(run).collect(),
    }
}

/// Reads the file of runs.
pub fn read_runs() -> Vec<RunsRecord> {
    records(RUNS).map(runs_record).collect()
}

fn windows_record(line: &'static str) -> WindowsRecord {
    let (left, starts) = sides(line);
    let left: Vec<&str> = left.split_whitespace().collect();
    let ["windows", pattern, record] = left[..] else {
        panic!("{line} has no pattern and record");
    };
    WindowsRecord {
        pattern: word(pattern),
        record: word(record),
        starts,
    }
}

/// Reads the file of windows.
pub fn read_windows() -> Vec<WindowsRecord> {
    records(WINDOWS).map(windows_record).collect()
}

fn report_record(line: &'static str) -> ReportRecord {
    let (left, listed) = sides(line);
    let letters = left.strip_prefix("report ");
    let word = word(letters.expect("a word and its report"));
    ReportRecord {
        report: reported(&word, listed),
        word,
    }
}

/// Reads the file of reports.
pub fn read_reports() -> Vec<ReportRecord> {
    records(REPORTS).map(report_record).collect()
}

fn square_free_record(line: &'static str) -> SquareFreeRecord {
    let (left, found) = sides(line);
    let sizes = left.strip_prefix("square-free ").map(numbers);
    let Some([k, n]) = sizes.as_deref() else {
        panic!("{line} has no alphabet and length");
    };
    SquareFreeRecord {
        alphabet: Alphabet(*k),
        length: Length(*n),
        numbers: found,
    }
}

/// Reads the file of square-free words.
pub fn read_square_free() -> Vec<SquareFreeRecord> {
    records(SQUARE_FREE).map(square_free_record).collect()
}
