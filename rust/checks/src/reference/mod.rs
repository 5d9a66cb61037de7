//! A second implementation, written from document 01 and, for runs, counts, windows, the cover length, the letters, the report of equal
//! letters, full periods, a tracker's totals and square-free words, from the requests C-11, C-12, C-13, C-14, C-16, C-17, C-18, C-19 and C-20
//! alone, in the plainest way: every block and every window is counted anew, every definition is tried word by word, and the tracker's machine
//! is a list of letters. It shares no route with the library, which goes by prefix counts, boards, counts that slide and a search.
mod covers;
mod full_periods;
mod periods;
mod runs;
mod square_free;
mod squares;
mod tracker;
mod windows;
mod words;

pub use covers::cover_lengths;
pub use periods::{ended_length, in_range, is_period, pairs, periods, Pair};
pub use runs::{runs, Run};
pub use square_free::{is_square_free, square_free};
pub use squares::squares;
pub use tracker::{Machine, Prefixes};
pub use windows::windows;
pub use words::{is_letter, is_one_letter};

use crate::calls::{Answer, Calls};
use covers::smallest_cover_length;
use full_periods::{full_periods, scaled};
use luffbutton::{Alphabet, Fields, Head, Length, Period, LONGEST};
use periods::{first_failure, plain_trials, skipping_trials};

/// The second implementation.
pub struct Reference;

/// An output word: the kind in the top 4 bits, then the upper and the lower number.
fn output_word(kind: usize, upper: usize, lower: usize) -> u32 {
    (kind * (1 << 28) + upper * (1 << 14) + lower) as u32
}

/// The words of a word's Abelian periods.
fn period_words(pairs: &[Pair]) -> Vec<u32> {
    let word_of = |pair: &Pair| output_word(1, pair.period.0, pair.head.0);
    pairs.iter().map(word_of).collect()
}

fn square_words(word: &[u8]) -> Vec<u32> {
    let word_of = |&(half, start): &(usize, usize)| output_word(2, half, start);
    squares(word).iter().map(word_of).collect()
}

fn full_words(word: &[u8]) -> Vec<u32> {
    let word_of = |&p: &usize| output_word(3, p, word.len() / p);
    full_periods(word).iter().map(word_of).collect()
}

/// The words of a word's Abelian runs, two for each: d and i, then j and the hands.
fn run_words(word: &[u8]) -> Vec<u32> {
    let hands = |run: &Run| 6 * (1 << 28) + run.j * (1 << 16) + run.left * (1 << 8) + run.right;
    let words_of = |run: Run| [output_word(5, run.d, run.i), hands(&run) as u32];
    runs(word).into_iter().flat_map(words_of).collect()
}

/// A report: its head, with the word's length and its smallest cover length or 0, then full periods, periods and squares.
fn report_words(word: &[u8]) -> Vec<u32> {
    let mut words = vec![output_word(8, word.len(), smallest_cover_length(word))];
    words.extend(full_words(word));
    words.extend(period_words(&periods(word)));
    words.extend(square_words(word));
    words
}

/// Refusals 1 and 2 of a word, in this order.
fn word_refusal(word: &[u8]) -> Option<Answer> {
    if word.len() > LONGEST {
        return Some(Answer::refused(1, 0));
    }
    letters_refusal(word)
}

/// Refusal 2: the first position, counted from 1, at which a byte is no letter.
fn letters_refusal(bytes: &[u8]) -> Option<Answer> {
    let first_outside = bytes.iter().position(|&byte| !is_letter(byte))?;
    Some(Answer::refused(2, first_outside + 1))
}

/// The refusals of a report but 3: those of a word, and 10 behind them.
fn report_refusal(word: &[u8]) -> Option<Answer> {
    let one_letter = || is_one_letter(word).then(|| Answer::refused(10, 0));
    word_refusal(word).or_else(one_letter)
}

/// Writes the words to the first places, or refuses with 3 and leaves the slice as it is.
fn write(words: &[u32], out: &mut [u32]) -> Answer {
    if words.len() > out.len() {
        return Answer::refused(3, words.len());
    }
    out[..words.len()].copy_from_slice(words);
    Answer::of_words(words.len())
}

/// A list call on a word: refusals 1, 2, 3, else the list with the numbers that `numbers` adds to an accepted answer.
fn list_call(
    word: &[u8],
    out: &mut [u32],
    list: impl Fn(&[u8]) -> Vec<u32>,
    numbers: impl Fn(Answer) -> Answer,
) -> Answer {
    if let Some(refusal) = word_refusal(word) {
        return refusal;
    }
    let answer = write(&list(word), out);
    if answer.number == 0 {
        numbers(answer)
    } else {
        answer
    }
}

/// A count: every refusal of the list call but 3, else the number of the list's words.
fn count_call(word: &[u8], words: impl Fn(&[u8]) -> usize) -> Answer {
    word_refusal(word).unwrap_or_else(|| Answer::of_words(words(word)))
}

impl Calls for Reference {
    fn judge(&self, word: &[u8], head: Head, period: Period) -> Answer {
        if let Some(refusal) = word_refusal(word) {
            return refusal;
        }
        let pair = Pair { head, period };
        if !in_range(word.len(), pair) {
            return Answer::refused(7, 0);
        }
        match first_failure(word, pair) {
            None => Answer {
                yes: 1,
                ..Answer::default()
            },
            Some((block, letter)) => Answer {
                block,
                letter: usize::from(letter),
                ..Answer::default()
            },
        }
    }

    fn list_plain(&self, word: &[u8], out: &mut [u32]) -> Answer {
        let list = |word: &[u8]| period_words(&periods(word));
        list_call(word, out, list, |answer| Answer {
            trials: plain_trials(word),
            ..answer
        })
    }

    fn list_skipping(&self, word: &[u8], out: &mut [u32]) -> Answer {
        let list = |word: &[u8]| period_words(&periods(word));
        list_call(word, out, list, |answer| Answer {
            trials: skipping_trials(word),
            ..answer
        })
    }

    fn list_full(&self, word: &[u8], out: &mut [u32]) -> Answer {
        list_call(word, out, full_words, |answer| answer)
    }

    fn list_full_scaled(&self, word: &[u8], out: &mut [u32]) -> Answer {
        list_call(word, out, full_words, |answer| {
            let (s, t) = scaled(word);
            Answer { s, t, ..answer }
        })
    }

    fn list_squares(&self, word: &[u8], out: &mut [u32]) -> Answer {
        list_call(word, out, square_words, |answer| answer)
    }

    fn list_runs(&self, word: &[u8], out: &mut [u32]) -> Answer {
        list_call(word, out, run_words, |answer| answer)
    }

    fn find_cover(&self, word: &[u8]) -> Answer {
        if let Some(refusal) = word_refusal(word) {
            return refusal;
        }
        let cover = smallest_cover_length(word);
        Answer {
            yes: usize::from(cover > 0),
            cover,
            ..Answer::default()
        }
    }

    fn report(&self, word: &[u8], out: &mut [u32]) -> Answer {
        report_refusal(word).unwrap_or_else(|| write(&report_words(word), out))
    }

    fn count_plain(&self, word: &[u8]) -> Answer {
        count_call(word, |word| periods(word).len())
    }

    fn count_skipping(&self, word: &[u8]) -> Answer {
        count_call(word, |word| periods(word).len())
    }

    fn count_full(&self, word: &[u8]) -> Answer {
        count_call(word, |word| full_periods(word).len())
    }

    fn count_full_scaled(&self, word: &[u8]) -> Answer {
        count_call(word, |word| full_periods(word).len())
    }

    fn count_squares(&self, word: &[u8]) -> Answer {
        count_call(word, |word| squares(word).len())
    }

    fn count_runs(&self, word: &[u8]) -> Answer {
        count_call(word, |word| 2 * runs(word).len())
    }

    fn count_report(&self, word: &[u8]) -> Answer {
        let words = || 1 + full_periods(word).len() + periods(word).len() + squares(word).len();
        report_refusal(word).unwrap_or_else(|| Answer::of_words(words()))
    }

    fn list_windows(&self, pattern: &[u8], record: &[u8], out: &mut [u32]) -> Answer {
        windows::list(pattern, record, out)
    }

    fn count_windows(&self, pattern: &[u8], record: &[u8]) -> Answer {
        windows::count(pattern, record)
    }

    fn list_square_free(&self, alphabet: Alphabet, length: Length, out: &mut [u32]) -> Answer {
        square_free::list(alphabet, length, out)
    }

    fn count_square_free(&self, alphabet: Alphabet, length: Length) -> Answer {
        square_free::count(alphabet, length)
    }

    fn fresh(&self, tracker: &mut Fields) {
        *tracker = Fields::zero();
    }

    fn add(&self, tracker: &mut Fields, letter: u8) -> Answer {
        tracker::add(tracker, letter)
    }

    fn take_back(&self, tracker: &mut Fields) -> Answer {
        tracker::take_back(tracker)
    }

    fn clear(&self, tracker: &mut Fields) -> Answer {
        *tracker = Fields::zero();
        Answer::default()
    }

    fn list(&self, tracker: &Fields, out: &mut [u32]) -> Answer {
        tracker::list(tracker, out)
    }

    fn count(&self, tracker: &Fields) -> Answer {
        tracker::count(tracker)
    }

    fn replay(&self, tracker: &mut Fields, calls: &[u8], out: &mut [u32]) -> Answer {
        tracker::replay(tracker, calls, out)
    }
}
