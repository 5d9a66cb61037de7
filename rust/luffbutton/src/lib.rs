//! Luffbutton finds cycles in event words: Abelian periods, full periods, Abelian squares, Abelian runs and covers of a word, and a
//! tracker that knows the periods of a word while letters join its end and are taken back. In a record, which may be longer than a word, it
//! finds the anagram windows of a pattern ([`list_windows`]): the stretches with the pattern's letters, each as often, in any order. Of an
//! alphabet and a length it finds all words that have no Abelian square ([`list_square_free`]). This crate is a safe interface over the
//! proved library's C interface; the header `include/luffbutton.h` defines the terms.
//!
//! A word is a slice of letters, the bytes `a` to `z`, [`LONGEST`] at most; a pattern is a word of one letter or more, and a record is a
//! slice of letters, [`LONGEST_RECORD`] at most. Every call takes any input; what it cannot do it refuses, with a reason of its own type
//! ([`Refusal`]). A refused call changes nothing; only a [`Tracker::replay`] whose list is refused has still made its calls. Heads and
//! periods, alphabets and lengths are types of their own, answers are enums and structs, and a tracker is made and changed by its calls
//! alone. Nothing is allocated. A call takes up to 40 KB of stack, one on a tracker up to 12 KB (the header's `LUFF_STACK_..`, measured),
//! and a [`Tracker`] has 14,784 bytes.
//!
//! A list is written to the first places of a lent slice of 32-bit words, and [`findings`] reads it ([`runs`] a list of runs,
//! [`square_free_words`] the letters of a list of square-free words):
//!
//! ```
//! use luffbutton::{findings, Finding, Head, Period, Tracker};
//!
//! let mut tracker = Tracker::fresh();
//! for letter in *b"abb" {
//!     tracker.add(letter).unwrap();
//! }
//! tracker.take_back().unwrap();
//! let mut out = [0; 8];
//! let written = tracker.list(&mut out).unwrap();
//! let (head, period) = (Head(0), Period(2));
//! assert!(findings(&out[..written]).eq([Finding::Period { head, period }]));
//! // Of the two pairs in range for ab, one is live and one has ended.
//! assert_eq!((tracker.live(), tracker.ended()), (1, 1));
//! ```
//!
//! Each list call has a count beside it, such as [`count_report`] for [`report`] and [`Tracker::count`] for [`Tracker::list`]. It says
//! how many words the list has, and so how many places it needs. Where a count is refused, its list is too, for the same reason. So a
//! program that allocates asks first and lists then:
//!
//! ```
//! use luffbutton::{count_report, findings, report};
//!
//! let word = b"abb";
//! let needed = count_report(word).unwrap();
//! let mut out = vec![0; needed];
//! assert_eq!(report(word, &mut out), Ok(needed));
//! // Its head, two periods and one square.
//! assert_eq!(findings(&out).count(), 4);
//! ```
#![no_std]
#![deny(missing_docs)]
#![deny(unsafe_code)]

mod finding;
#[doc(hidden)]
pub mod numbers;
mod refusal;
mod run;
mod square_free;
mod tracker;
mod vocabulary;
mod windows;
mod words;

pub use finding::{findings, Finding};
pub use refusal::Refusal;
pub use run::{runs, Run};
pub use square_free::{count_square_free, list_square_free, square_free_words, SquareFreeWord};
pub use tracker::Tracker;
pub use vocabulary::{Alphabet, Fields, Head, Length, Period, BOARD, BOUND_RUNS, CLEAR};
pub use vocabulary::{FIRST_LETTER, LARGEST_ALPHABET, LETTERS, LONGEST, LONGEST_RECORD};
pub use vocabulary::{LONGEST_SQUARE_FREE, MOST_FULL, MOST_PERIODS, MOST_REPORT, MOST_SQUARES};
pub use vocabulary::{MOST_SQUARE_FREE, MOST_WINDOWS, TAKE_BACK};
pub use windows::{count_windows, list_windows};
pub use words::{count_full, count_full_scaled, count_plain, count_report, count_runs};
pub use words::{count_skipping, count_squares, find_cover, judge, list_full, list_full_scaled};
pub use words::{list_plain, list_runs, list_skipping, list_squares, report};
pub use words::{Cover, Listed, Scaled, Verdict};
