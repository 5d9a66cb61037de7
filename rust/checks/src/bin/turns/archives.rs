//! The calls on words and trackers of two archives, this one and an older one. The script `rust/turns` has renamed the functions of both, luff_report to
//! after_luff_report and before_luff_report and so on, so that one program can link both.
//!
//! It is the one place of the checks with `unsafe`: the functions are declared and called here alone, with slices and fields that are lent
//! for the call, as in `luffbutton::numbers`.
#![allow(unsafe_code)]
use checks::calls::Answer;
use luffbutton::numbers::{Counted, Listed, Outcome, Replayed, Scaled, Wrote};
use luffbutton::{Fields, BOARD, LONGEST};
use std::sync::OnceLock;

/// Declares functions that both archives have, with the same parameters, answers and layouts; but those that change a tracker take no totals in an
/// archive from before request C-19.
macro_rules! archives {
    ($($function:ident($($name:ident: $kind:ty),*) -> $answer:ty;)*) => {
        /// The functions of an archive.
        pub struct Archive {
            $($function: unsafe extern "C" fn($($kind),*) -> $answer,)*
        }

        /// This archive and the older one.
        pub static BOTH: [Archive; 2] = [
            {
                #[link(name = "luffafter", kind = "static")]
                extern "C" {
                    $(#[link_name = concat!("after_", stringify!($function))] fn $function($($name: $kind),*) -> $answer;)*
                }
                Archive { $($function),* }
            },
            {
                #[link(name = "luffbefore", kind = "static")]
                extern "C" {
                    $(#[link_name = concat!("before_", stringify!($function))] fn $function($($name: $kind),*) -> $answer;)*
                }
                Archive { $($function),* }
            },
        ];
    };
}

type Bytes = [u8; LONGEST];
type Board = [u8; BOARD];

/// The add of an archive from before request C-19: the letter stands where live does now. The other calls of such an archive read the arguments that
/// they know, which come first.
type AddWithoutTotals = unsafe extern "C" fn(*mut usize, *mut Bytes, *mut Board, u8) -> Outcome;

archives! {
    luff_list_plain(word: *const u8, n: usize, out: *mut u32, places: usize) -> Listed;
    luff_list_skipping(word: *const u8, n: usize, out: *mut u32, places: usize) -> Listed;
    luff_list_full(word: *const u8, n: usize, out: *mut u32, places: usize) -> Wrote;
    luff_list_full_scaled(word: *const u8, n: usize, out: *mut u32, places: usize) -> Scaled;
    luff_list_squares(word: *const u8, n: usize, out: *mut u32, places: usize) -> Wrote;
    luff_list_runs(word: *const u8, n: usize, out: *mut u32, places: usize) -> Wrote;
    luff_report(word: *const u8, n: usize, out: *mut u32, places: usize) -> Wrote;
    luff_count_plain(word: *const u8, n: usize) -> Counted;
    luff_count_skipping(word: *const u8, n: usize) -> Counted;
    luff_count_full(word: *const u8, n: usize) -> Counted;
    luff_count_full_scaled(word: *const u8, n: usize) -> Counted;
    luff_count_squares(word: *const u8, n: usize) -> Counted;
    luff_count_runs(word: *const u8, n: usize) -> Counted;
    luff_count_report(word: *const u8, n: usize) -> Counted;
    luff_tracker_add_fields(length: *mut usize, bytes: *mut Bytes, board: *mut Board, live: *mut usize, ended: *mut usize, letter: u8) -> Outcome;
    luff_tracker_take_back_fields(length: *mut usize, bytes: *mut Bytes, board: *mut Board, live: *mut usize, ended: *mut usize) -> Outcome;
    luff_tracker_clear_fields(length: *mut usize, bytes: *mut Bytes, board: *mut Board, live: *mut usize, ended: *mut usize) -> Outcome;
    luff_tracker_list_fields(length: usize, bytes: *const Bytes, board: *const Board, out: *mut u32, places: usize) -> Wrote;
    luff_tracker_count_fields(length: usize, bytes: *const Bytes, board: *const Board) -> Counted;
    luff_tracker_replay_fields(calls: *const u8, n: usize, out: *mut u32, places: usize, length: *mut usize, bytes: *mut Bytes, board: *mut Board, live: *mut usize, ended: *mut usize) -> Replayed;
}

/// A list call of an archive on a word.
pub type ListCall = fn(&Archive, &[u8], &mut [u32]) -> Answer;

/// The list calls on a word, by name.
pub const LISTS: [(&str, ListCall); 7] = [
    ("list_plain", |archive, word, out| {
        list_by(archive.luff_list_plain, word, out)
    }),
    ("list_skipping", |archive, word, out| {
        list_by(archive.luff_list_skipping, word, out)
    }),
    ("list_full", |archive, word, out| {
        list_by(archive.luff_list_full, word, out)
    }),
    ("list_full_scaled", |archive, word, out| {
        list_by(archive.luff_list_full_scaled, word, out)
    }),
    ("list_squares", |archive, word, out| {
        list_by(archive.luff_list_squares, word, out)
    }),
    ("list_runs", |archive, word, out| {
        list_by(archive.luff_list_runs, word, out)
    }),
    ("report", REPORT),
];

/// The report alone.
pub const REPORT: ListCall = |archive, word, out| list_by(archive.luff_report, word, out);

/// A function of an archive that lists something of a word.
type ListFunction<Numbers> = unsafe extern "C" fn(*const u8, usize, *mut u32, usize) -> Numbers;

fn list_by<Numbers>(function: ListFunction<Numbers>, word: &[u8], out: &mut [u32]) -> Answer
where
    Answer: From<Numbers>,
{
    // SAFETY: `function` is one of an archive's that list something of a word (this function is private, and no other is handed to it),
    // and both slices are valid for their lengths.
    let numbers = unsafe { function(word.as_ptr(), word.len(), out.as_mut_ptr(), out.len()) };
    numbers.into()
}

/// A count call of an archive on a word.
pub type CountCall = fn(&Archive, &[u8]) -> Counted;

/// The count calls on a word, by name.
pub const COUNTS: [(&str, CountCall); 7] = [
    ("count_plain", |archive, word| {
        count_by(archive.luff_count_plain, word)
    }),
    ("count_skipping", |archive, word| {
        count_by(archive.luff_count_skipping, word)
    }),
    ("count_full", |archive, word| {
        count_by(archive.luff_count_full, word)
    }),
    ("count_full_scaled", |archive, word| {
        count_by(archive.luff_count_full_scaled, word)
    }),
    ("count_squares", |archive, word| {
        count_by(archive.luff_count_squares, word)
    }),
    ("count_runs", |archive, word| {
        count_by(archive.luff_count_runs, word)
    }),
    ("count_report", |archive, word| {
        count_by(archive.luff_count_report, word)
    }),
];

/// A function of an archive that counts something of a word.
type CountFunction = unsafe extern "C" fn(*const u8, usize) -> Counted;

fn count_by(function: CountFunction, word: &[u8]) -> Counted {
    // SAFETY: `function` is one of an archive's that count something of a word (this function is private, and no other is handed to it),
    // and the slice is valid for its length.
    unsafe { function(word.as_ptr(), word.len()) }
}

/// Whether the bytes are letters, and the tracker's calls.
impl Archive {
    /// Whether the archive reads the word. One from before request C-16 has fewer letters, and refuses a word with others by number 2.
    pub fn reads(&self, word: &[u8]) -> bool {
        count_by(self.luff_count_full, word).refusal != 2
    }

    /// Whether the archive's trackers have totals. One from before request C-19 leaves them as they are.
    pub fn has_totals(&self) -> bool {
        static BOTH_HAVE: OnceLock<[bool; 2]> = OnceLock::new();
        let have = BOTH_HAVE.get_or_init(|| [0, 1].map(|place| BOTH[place].clears_totals()));
        have[usize::from(!std::ptr::eq(self, &BOTH[0]))]
    }

    fn clears_totals(&self) -> bool {
        let mut tracker = Fields::zero();
        tracker.live = 1;
        let (length, bytes, board) = (&mut tracker.length, &mut tracker.bytes, &mut tracker.board);
        let (live, ended) = (&mut tracker.live, &mut tracker.ended);
        // SAFETY: the fields are five places of one struct. A function of an older archive takes the first three and leaves the registers of the
        // others alone, as System V calls allow.
        unsafe { (self.luff_tracker_clear_fields)(length, bytes, board, live, ended) };
        tracker.live == 0
    }

    pub fn add(&self, tracker: &mut Fields, letter: u8) -> Outcome {
        let (length, bytes, board) = (&mut tracker.length, &mut tracker.bytes, &mut tracker.board);
        let add = self.luff_tracker_add_fields;
        if self.has_totals() {
            let (live, ended) = (&mut tracker.live, &mut tracker.ended);
            // SAFETY: the fields are five places of one struct.
            return unsafe { add(length, bytes, board, live, ended, letter) };
        }
        // SAFETY: the fields are three places of one struct, and this is the function's type in an archive without totals.
        unsafe {
            let add: AddWithoutTotals = std::mem::transmute(add);
            add(length, bytes, board, letter)
        }
    }

    pub fn take_back(&self, tracker: &mut Fields) -> Outcome {
        let (length, bytes, board) = (&mut tracker.length, &mut tracker.bytes, &mut tracker.board);
        let (live, ended) = (&mut tracker.live, &mut tracker.ended);
        // SAFETY: the fields are five places of one struct; an older archive takes the first three.
        unsafe { (self.luff_tracker_take_back_fields)(length, bytes, board, live, ended) }
    }

    pub fn list(&self, tracker: &Fields, out: &mut [u32]) -> Wrote {
        let (length, bytes, board) = (tracker.length, &tracker.bytes, &tracker.board);
        let (places, out) = (out.len(), out.as_mut_ptr());
        // SAFETY: the fields are lent for reading, and the slice is valid for its length.
        unsafe { (self.luff_tracker_list_fields)(length, bytes, board, out, places) }
    }

    pub fn count(&self, tracker: &Fields) -> Counted {
        let (length, bytes, board) = (tracker.length, &tracker.bytes, &tracker.board);
        // SAFETY: the fields are lent for reading.
        unsafe { (self.luff_tracker_count_fields)(length, bytes, board) }
    }

    pub fn replay(&self, tracker: &mut Fields, calls: &[u8], out: &mut [u32]) -> Replayed {
        // SAFETY: both slices are valid for their lengths, and the fields are five places of one struct; an older archive takes the first
        // three.
        unsafe {
            (self.luff_tracker_replay_fields)(
                calls.as_ptr(),
                calls.len(),
                out.as_mut_ptr(),
                out.len(),
                &mut tracker.length,
                &mut tracker.bytes,
                &mut tracker.board,
                &mut tracker.live,
                &mut tracker.ended,
            )
        }
    }
}
