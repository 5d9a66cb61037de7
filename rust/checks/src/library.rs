//! The proved library, with every number of its answers.
use crate::calls::{Answer, Calls};
use luffbutton::numbers::{self, Counted, Cover, Listed, Outcome};
use luffbutton::numbers::{Replayed, Scaled, Verdict, Wrote};
use luffbutton::{Alphabet, Fields, Head, Length, Period};

/// The library behind the C interface.
pub struct Library;

/// Makes an answer of a call's numbers: for each struct its numbers by name, and under which name the answer has them.
macro_rules! answers {
    ($($numbers:ident { $($name:ident: $kept:ident),* })*) => {$(
        impl From<$numbers> for Answer {
            fn from($numbers { refusal: number, value, $($name: $kept),* }: $numbers) -> Answer {
                Answer { number, value, $($kept,)* ..Answer::default() }
            }
        }
    )*};
}

answers! {
    Outcome {}
    Wrote { written: written }
    Counted { words: written }
    Listed { written: written, trials: trials }
    Scaled { written: written, s: s, t: t }
    Verdict { yes: yes, block: block, letter: letter }
    Cover { yes: yes, length: cover }
    Replayed { refused: refused, written: written }
}

impl Calls for Library {
    fn judge(&self, word: &[u8], head: Head, period: Period) -> Answer {
        numbers::judge(word, head, period).into()
    }

    fn list_plain(&self, word: &[u8], out: &mut [u32]) -> Answer {
        numbers::list_plain(word, out).into()
    }

    fn list_skipping(&self, word: &[u8], out: &mut [u32]) -> Answer {
        numbers::list_skipping(word, out).into()
    }

    fn list_full(&self, word: &[u8], out: &mut [u32]) -> Answer {
        numbers::list_full(word, out).into()
    }

    fn list_full_scaled(&self, word: &[u8], out: &mut [u32]) -> Answer {
        numbers::list_full_scaled(word, out).into()
    }

    fn list_squares(&self, word: &[u8], out: &mut [u32]) -> Answer {
        numbers::list_squares(word, out).into()
    }

    fn list_runs(&self, word: &[u8], out: &mut [u32]) -> Answer {
        numbers::list_runs(word, out).into()
    }

    fn find_cover(&self, word: &[u8]) -> Answer {
        numbers::find_cover(word).into()
    }

    fn report(&self, word: &[u8], out: &mut [u32]) -> Answer {
        numbers::report(word, out).into()
    }

    fn count_plain(&self, word: &[u8]) -> Answer {
        numbers::count_plain(word).into()
    }

    fn count_skipping(&self, word: &[u8]) -> Answer {
        numbers::count_skipping(word).into()
    }

    fn count_full(&self, word: &[u8]) -> Answer {
        numbers::count_full(word).into()
    }

    fn count_full_scaled(&self, word: &[u8]) -> Answer {
        numbers::count_full_scaled(word).into()
    }

    fn count_squares(&self, word: &[u8]) -> Answer {
        numbers::count_squares(word).into()
    }

    fn count_runs(&self, word: &[u8]) -> Answer {
        numbers::count_runs(word).into()
    }

    fn count_report(&self, word: &[u8]) -> Answer {
        numbers::count_report(word).into()
    }

    fn list_windows(&self, pattern: &[u8], record: &[u8], out: &mut [u32]) -> Answer {
        numbers::list_windows(pattern, record, out).into()
    }

    fn count_windows(&self, pattern: &[u8], record: &[u8]) -> Answer {
        numbers::count_windows(pattern, record).into()
    }

    fn list_square_free(&self, alphabet: Alphabet, length: Length, out: &mut [u32]) -> Answer {
        numbers::list_square_free(alphabet, length, out).into()
    }

    fn count_square_free(&self, alphabet: Alphabet, length: Length) -> Answer {
        numbers::count_square_free(alphabet, length).into()
    }

    fn fresh(&self, tracker: &mut Fields) {
        numbers::fresh(tracker);
    }

    fn add(&self, tracker: &mut Fields, letter: u8) -> Answer {
        numbers::add(tracker, letter).into()
    }

    fn take_back(&self, tracker: &mut Fields) -> Answer {
        numbers::take_back(tracker).into()
    }

    fn clear(&self, tracker: &mut Fields) -> Answer {
        numbers::clear(tracker).into()
    }

    fn list(&self, tracker: &Fields, out: &mut [u32]) -> Answer {
        numbers::list(tracker, out).into()
    }

    fn count(&self, tracker: &Fields) -> Answer {
        numbers::count(tracker).into()
    }

    fn replay(&self, tracker: &mut Fields, calls: &[u8], out: &mut [u32]) -> Answer {
        numbers::replay(tracker, calls, out).into()
    }
}
