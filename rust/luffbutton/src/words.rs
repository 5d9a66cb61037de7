//! The calls on a word.
use crate::numbers;
use crate::refusal::Refusal;
use crate::vocabulary::{Head, Period};

/// What the judge says of a pair in range.
#[derive(Clone, Copy, Debug, PartialEq, Eq)]
pub enum Verdict {
    /// The pair is an Abelian period of the word.
    Yes,
    /// It is none.
    No {
        /// The first block that breaks the rule against block 1; 0 is the head, and the tail comes behind the last whole block.
        block: usize,
        /// The first letter in it that does, in letter order.
        letter: u8,
    },
}

/// What the search for a cover finds. A report's head says it too.
#[derive(Clone, Copy, Debug, PartialEq, Eq)]
pub enum Cover {
    /// The smallest m below n, 2m at least n, at which the first m and the last m letters have equal counts; these two cover the word.
    Length(usize),
    /// No set of intervals covers the word.
    Nothing,
}

/// What a lister of periods did.
#[derive(Clone, Copy, Debug, PartialEq, Eq)]
pub struct Listed {
    /// The words written to the first places.
    pub written: usize,
    /// The pairs tried.
    pub trials: usize,
}

/// What the list by scaled positions did.
#[derive(Clone, Copy, Debug, PartialEq, Eq)]
pub struct Scaled {
    /// The words written to the first places.
    pub written: usize,
    /// The word's length divided by the greatest common divisor of its letter counts; 0 for the empty word.
    pub s: usize,
    /// T: the greatest distance between neighbouring scaled positions, divided by s; 0 for the empty word.
    pub t: usize,
}

/// Judges a pair: refusals 1, 2, 7.
pub fn judge(word: &[u8], head: Head, period: Period) -> Result<Verdict, Refusal> {
    let answer = numbers::judge(word, head, period);
    Refusal::check(answer.refusal, answer.value)?;
    Ok(match answer.yes {
        1 => Verdict::Yes,
        _ => Verdict::No {
            block: answer.block,
            letter: answer.letter as u8,
        },
    })
}

/// Writes all Abelian periods, by p and then h, and tries every pair in range: refusals 1, 2, 3.
pub fn list_plain(word: &[u8], out: &mut [u32]) -> Result<Listed, Refusal> {
    listed(numbers::list_plain(word, out))
}

/// The same list; tries only pairs whose head is not ruled out and whose period is at least L(h), terms of the header: refusals 1, 2, 3.
pub fn list_skipping(word: &[u8], out: &mut [u32]) -> Result<Listed, Refusal> {
    listed(numbers::list_skipping(word, out))
}

fn listed(answer: numbers::Listed) -> Result<Listed, Refusal> {
    Refusal::check(answer.refusal, answer.value)?;
    let (written, trials) = (answer.written, answer.trials);
    Ok(Listed { written, trials })
}

/// Writes the full periods by rising p, each smaller than the word's length, and returns how many: refusals 1, 2, 3.
pub fn list_full(word: &[u8], out: &mut [u32]) -> Result<usize, Refusal> {
    written(numbers::list_full(word, out))
}

/// The same list by scaled positions, with s and T: refusals 1, 2, 3.
pub fn list_full_scaled(word: &[u8], out: &mut [u32]) -> Result<Scaled, Refusal> {
    let answer = numbers::list_full_scaled(word, out);
    Refusal::check(answer.refusal, answer.value)?;
    let (written, s, t) = (answer.written, answer.s, answer.t);
    Ok(Scaled { written, s, t })
}

/// Writes all Abelian squares, by half length and then start, and returns how many: refusals 1, 2, 3.
pub fn list_squares(word: &[u8], out: &mut [u32]) -> Result<usize, Refusal> {
    written(numbers::list_squares(word, out))
}

/// Writes all Abelian runs, by the length of a block and then by start, two words for each, and returns how many words: refusals 1, 2, 3.
/// The words needed, which a slice that is too short is refused with, are two for each run as well. [`runs`](crate::runs) reads what is
/// written, and a slice of [`BOUND_RUNS`](crate::BOUND_RUNS) places is never too short.
///
/// ```
/// use luffbutton::{list_runs, runs, Period, Run};
///
/// let mut out = [0; 16];
/// let written = list_runs(b"abaababa", &mut out).unwrap();
/// assert_eq!(written, 10);
/// // Five runs, and one of them has blocks of three letters from position 1 on: aba, aba, and ba for its right hand.
/// let run = Run { period: Period(3), start: 1, end: 6, left: 0, right: 2 };
/// let mut found = runs(&out[..written]);
/// assert_eq!(found.clone().count(), 5);
/// assert!(found.any(|other| other == run));
/// ```
pub fn list_runs(word: &[u8], out: &mut [u32]) -> Result<usize, Refusal> {
    written(numbers::list_runs(word, out))
}

/// Writes a report, which is its head, full periods, periods and squares, and returns how many words: refusals 1, 2, 10, 3. The head says the
/// word's length and the [`Cover`] that [`find_cover`] answers. A slice of [`MOST_REPORT`](crate::MOST_REPORT) places or more is never too
/// short, so that the report is not counted before it is written. Of two or more letters that are all equal every
/// pair in range is a period, and there is no report.
///
/// ```
/// use luffbutton::{findings, report, Cover, Finding, Refusal};
///
/// let mut out = [0; 16];
/// let written = report(b"abba", &mut out).unwrap();
/// let head = Finding::ReportHead { length: 4, cover: Cover::Length(2) };
/// assert_eq!(findings(&out[..written]).next(), Some(head));
/// assert_eq!(report(b"aa", &mut out), Err(Refusal::OneLetter));
/// ```
pub fn report(word: &[u8], out: &mut [u32]) -> Result<usize, Refusal> {
    written(numbers::report(word, out))
}

/// How many words a list call has written, or its refusal.
pub(crate) fn written(answer: numbers::Wrote) -> Result<usize, Refusal> {
    Refusal::check(answer.refusal, answer.value)?;
    Ok(answer.written)
}

/// How many words [`list_plain`] writes of this word, and so how many places it needs: refusals 1, 2.
pub fn count_plain(word: &[u8]) -> Result<usize, Refusal> {
    counted(numbers::count_plain(word))
}

/// How many words [`list_skipping`] writes of this word, and so how many places it needs: refusals 1, 2.
pub fn count_skipping(word: &[u8]) -> Result<usize, Refusal> {
    counted(numbers::count_skipping(word))
}

/// How many words [`list_full`] writes of this word, and so how many places it needs: refusals 1, 2.
pub fn count_full(word: &[u8]) -> Result<usize, Refusal> {
    counted(numbers::count_full(word))
}

/// How many words [`list_full_scaled`] writes of this word, and so how many places it needs: refusals 1, 2. s and T are the list's alone.
pub fn count_full_scaled(word: &[u8]) -> Result<usize, Refusal> {
    counted(numbers::count_full_scaled(word))
}

/// How many words [`list_squares`] writes of this word, and so how many places it needs: refusals 1, 2.
pub fn count_squares(word: &[u8]) -> Result<usize, Refusal> {
    counted(numbers::count_squares(word))
}

/// How many words [`list_runs`] writes of this word, two for each run, and so how many places it needs: refusals 1, 2.
pub fn count_runs(word: &[u8]) -> Result<usize, Refusal> {
    counted(numbers::count_runs(word))
}

/// How many words [`report`] writes of this word, its head included, and so how many places it needs: refusals 1, 2, 10. A report into fewer
/// than [`MOST_REPORT`](crate::MOST_REPORT) places counts again before it writes.
pub fn count_report(word: &[u8]) -> Result<usize, Refusal> {
    counted(numbers::count_report(word))
}

/// How many words a count has found, or its refusal.
pub(crate) fn counted(answer: numbers::Counted) -> Result<usize, Refusal> {
    Refusal::check(answer.refusal, answer.value)?;
    Ok(answer.words)
}

/// Looks for a cover: refusals 1, 2. Where several lengths are possible, as 2 and 3 are for `abba`, the smallest is answered.
pub fn find_cover(word: &[u8]) -> Result<Cover, Refusal> {
    let answer = numbers::find_cover(word);
    Refusal::check(answer.refusal, answer.value)?;
    Ok(match answer.yes {
        1 => Cover::Length(answer.length),
        _ => Cover::Nothing,
    })
}
