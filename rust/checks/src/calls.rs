//! The calls and their answers in a form that the library and the second implementation share.
use luffbutton::{Alphabet, Fields, Head, Length, Period};

/// The numbers of any call's answer. Those that a call does not have are 0.
#[derive(Clone, Copy, Debug, Default, PartialEq, Eq)]
pub struct Answer {
    /// The refusal's number in document 01's table or in the requests C-13, C-17 and C-20, 0 where the call is accepted.
    pub number: usize,
    /// The refusal's value.
    pub value: usize,
    /// The number of words: of a list call those that it has written, of a count those that the list has. The proved definitions keep
    /// both under this name.
    pub written: usize,
    /// The pairs that a lister of periods tried.
    pub trials: usize,
    /// The scaled path's s.
    pub s: usize,
    /// The scaled path's T.
    pub t: usize,
    /// 1 where the judge says yes or a cover exists.
    pub yes: usize,
    /// The block of the judge's first failure.
    pub block: usize,
    /// The letter's byte of the judge's first failure.
    pub letter: usize,
    /// The smallest cover length, 0 where no cover exists.
    pub cover: usize,
    /// The calls that a replay saw refused.
    pub refused: usize,
}

impl Answer {
    /// A refusal's answer: every number but these two is 0.
    pub fn refused(number: usize, value: usize) -> Answer {
        Answer {
            number,
            value,
            ..Answer::default()
        }
    }

    /// The answer of an accepted call that has the number of words alone: every other number is 0.
    pub fn of_words(written: usize) -> Answer {
        Answer {
            written,
            ..Answer::default()
        }
    }
}

/// The calls of document 01 and of the requests C-11 to C-14 and C-20 with all their numbers, so that one test can be run on the library and
/// on a second implementation.
/// A list call writes to `out`; a tracker call but `list` and `count` changes the fields.
pub trait Calls {
    fn judge(&self, word: &[u8], head: Head, period: Period) -> Answer;
    fn list_plain(&self, word: &[u8], out: &mut [u32]) -> Answer;
    fn list_skipping(&self, word: &[u8], out: &mut [u32]) -> Answer;
    fn list_full(&self, word: &[u8], out: &mut [u32]) -> Answer;
    fn list_full_scaled(&self, word: &[u8], out: &mut [u32]) -> Answer;
    fn list_squares(&self, word: &[u8], out: &mut [u32]) -> Answer;
    fn list_runs(&self, word: &[u8], out: &mut [u32]) -> Answer;
    fn find_cover(&self, word: &[u8]) -> Answer;
    fn report(&self, word: &[u8], out: &mut [u32]) -> Answer;
    fn count_plain(&self, word: &[u8]) -> Answer;
    fn count_skipping(&self, word: &[u8]) -> Answer;
    fn count_full(&self, word: &[u8]) -> Answer;
    fn count_full_scaled(&self, word: &[u8]) -> Answer;
    fn count_squares(&self, word: &[u8]) -> Answer;
    fn count_runs(&self, word: &[u8]) -> Answer;
    fn count_report(&self, word: &[u8]) -> Answer;
    fn list_windows(&self, pattern: &[u8], record: &[u8], out: &mut [u32]) -> Answer;
    fn count_windows(&self, pattern: &[u8], record: &[u8]) -> Answer;
    fn list_square_free(&self, alphabet: Alphabet, length: Length, out: &mut [u32]) -> Answer;
    fn count_square_free(&self, alphabet: Alphabet, length: Length) -> Answer;
    fn fresh(&self, tracker: &mut Fields);
    fn add(&self, tracker: &mut Fields, letter: u8) -> Answer;
    fn take_back(&self, tracker: &mut Fields) -> Answer;
    fn clear(&self, tracker: &mut Fields) -> Answer;
    fn list(&self, tracker: &Fields, out: &mut [u32]) -> Answer;
    fn count(&self, tracker: &Fields) -> Answer;
    fn replay(&self, tracker: &mut Fields, calls: &[u8], out: &mut [u32]) -> Answer;
}
