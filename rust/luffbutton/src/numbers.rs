//! The calls with all their numbers, as the C interface has them: each returns a struct of numbers, of which `refusal` is 0 where the
//! call is accepted. Callers use the functions and [`Tracker`](crate::Tracker) of the crate's root; this module serves tests, which look
//! at every number, and trackers by their fields, also such as no calls have made.
//!
//! It is the one place with `unsafe`: the functions of the archive are declared and called here alone, with slices and fields that are
//! lent for the call. References keep the C interface's rules: nothing is null, and what is written overlaps nothing else.
#![allow(unsafe_code)]
use crate::vocabulary::{Alphabet, Fields, Head, Length, Period, BOARD, LONGEST};

/// The numbers of a call that has none of its own.
#[repr(C)]
#[derive(Clone, Copy, Debug, PartialEq, Eq)]
pub struct Outcome {
    /// The refusal's number, 0 where the call is accepted.
    pub refusal: usize,
    /// The refusal's value.
    pub value: usize,
}

/// The numbers of a list.
#[repr(C)]
#[derive(Clone, Copy, Debug, PartialEq, Eq)]
pub struct Wrote {
    /// The refusal's number, 0 where the call is accepted.
    pub refusal: usize,
    /// The refusal's value.
    pub value: usize,
    /// The words written to the first places.
    pub written: usize,
}

/// The numbers of a count.
#[repr(C)]
#[derive(Clone, Copy, Debug, PartialEq, Eq)]
pub struct Counted {
    /// The refusal's number, 0 where the call is accepted.
    pub refusal: usize,
    /// The refusal's value.
    pub value: usize,
    /// The words that the list has.
    pub words: usize,
}

/// The numbers of a lister of periods.
#[repr(C)]
#[derive(Clone, Copy, Debug, PartialEq, Eq)]
pub struct Listed {
    /// The refusal's number, 0 where the call is accepted.
    pub refusal: usize,
    /// The refusal's value.
    pub value: usize,
    /// The words written to the first places.
    pub written: usize,
    /// The pairs tried.
    pub trials: usize,
}

/// The numbers of the list by scaled positions.
#[repr(C)]
#[derive(Clone, Copy, Debug, PartialEq, Eq)]
pub struct Scaled {
    /// The refusal's number, 0 where the call is accepted.
    pub refusal: usize,
    /// The refusal's value.
    pub value: usize,
    /// The words written to the first places.
    pub written: usize,
    /// The word's length divided by the greatest common divisor of its letter counts.
    pub s: usize,
    /// The greatest distance between neighbouring scaled positions, divided by s.
    pub t: usize,
}

/// The judge's numbers.
#[repr(C)]
#[derive(Clone, Copy, Debug, PartialEq, Eq)]
pub struct Verdict {
    /// The refusal's number, 0 where the call is accepted.
    pub refusal: usize,
    /// The refusal's value.
    pub value: usize,
    /// 1 where the pair is an Abelian period.
    pub yes: usize,
    /// The block of the first failure.
    pub block: usize,
    /// The byte of the first failure's letter.
    pub letter: usize,
}

/// The numbers of the search for a cover.
#[repr(C)]
#[derive(Clone, Copy, Debug, PartialEq, Eq)]
pub struct Cover {
    /// The refusal's number, 0 where the call is accepted.
    pub refusal: usize,
    /// The refusal's value.
    pub value: usize,
    /// 1 where a cover exists.
    pub yes: usize,
    /// The length of the cover's two intervals, the smallest that is possible; 0 where no cover exists.
    pub length: usize,
}

/// A replay's numbers.
#[repr(C)]
#[derive(Clone, Copy, Debug, PartialEq, Eq)]
pub struct Replayed {
    /// The number of the list's refusal, 0 where the list is accepted.
    pub refusal: usize,
    /// The refusal's value.
    pub value: usize,
    /// How many of the calls were refused, also where the list is.
    pub refused: usize,
    /// The words written to the first places.
    pub written: usize,
}

/// A function of the archive that lists something of a word.
type ListCall<Numbers> = unsafe extern "C" fn(*const u8, usize, *mut u32, usize) -> Numbers;

/// A function of the archive that counts the words of such a list.
type CountCall = unsafe extern "C" fn(*const u8, usize) -> Counted;

extern "C" {
    fn luff_judge(word: *const u8, n: usize, head: Head, period: Period) -> Verdict;
    fn luff_list_plain(word: *const u8, n: usize, out: *mut u32, places: usize) -> Listed;
    fn luff_list_skipping(word: *const u8, n: usize, out: *mut u32, places: usize) -> Listed;
    fn luff_list_full(word: *const u8, n: usize, out: *mut u32, places: usize) -> Wrote;
    fn luff_list_full_scaled(word: *const u8, n: usize, out: *mut u32, places: usize) -> Scaled;
    fn luff_list_squares(word: *const u8, n: usize, out: *mut u32, places: usize) -> Wrote;
    fn luff_list_runs(word: *const u8, n: usize, out: *mut u32, places: usize) -> Wrote;
    fn luff_report(word: *const u8, n: usize, out: *mut u32, places: usize) -> Wrote;
    fn luff_count_plain(word: *const u8, n: usize) -> Counted;
    fn luff_count_skipping(word: *const u8, n: usize) -> Counted;
    fn luff_count_full(word: *const u8, n: usize) -> Counted;
    fn luff_count_full_scaled(word: *const u8, n: usize) -> Counted;
    fn luff_count_squares(word: *const u8, n: usize) -> Counted;
    fn luff_count_runs(word: *const u8, n: usize) -> Counted;
    fn luff_count_report(word: *const u8, n: usize) -> Counted;
    fn luff_find_cover(word: *const u8, n: usize) -> Cover;
    fn luff_list_windows(
        pattern: *const u8,
        m: usize,
        record: *const u8,
        n: usize,
        out: *mut u32,
        places: usize,
    ) -> Wrote;
    fn luff_count_windows(pattern: *const u8, m: usize, record: *const u8, n: usize) -> Counted;
    fn luff_list_square_free(
        alphabet: Alphabet,
        length: Length,
        out: *mut u32,
        places: usize,
    ) -> Wrote;
    fn luff_count_square_free(alphabet: Alphabet, length: Length) -> Counted;
    fn luff_tracker_fresh_fields(
        length: *mut usize,
        bytes: *mut [u8; LONGEST],
        board: *mut [u8; BOARD],
        live: *mut usize,
        ended: *mut usize,
    );
    fn luff_tracker_add_fields(
        length: *mut usize,
        bytes: *mut [u8; LONGEST],
        board: *mut [u8; BOARD],
        live: *mut usize,
        ended: *mut usize,
        letter: u8,
    ) -> Outcome;
    fn luff_tracker_take_back_fields(
        length: *mut usize,
        bytes: *mut [u8; LONGEST],
        board: *mut [u8; BOARD],
        live: *mut usize,
        ended: *mut usize,
    ) -> Outcome;
    fn luff_tracker_clear_fields(
        length: *mut usize,
        bytes: *mut [u8; LONGEST],
        board: *mut [u8; BOARD],
        live: *mut usize,
        ended: *mut usize,
    ) -> Outcome;
    fn luff_tracker_list_fields(
        length: usize,
        bytes: *const [u8; LONGEST],
        board: *const [u8; BOARD],
        out: *mut u32,
        places: usize,
    ) -> Wrote;
    fn luff_tracker_count_fields(
        length: usize,
        bytes: *const [u8; LONGEST],
        board: *const [u8; BOARD],
    ) -> Counted;
    fn luff_tracker_replay_fields(
        calls: *const u8,
        n: usize,
        out: *mut u32,
        places: usize,
        length: *mut usize,
        bytes: *mut [u8; LONGEST],
        board: *mut [u8; BOARD],
        live: *mut usize,
        ended: *mut usize,
    ) -> Replayed;
}

/// Calls one of the archive's seven functions that list something of a word.
fn list_by<Numbers>(call: ListCall<Numbers>, word: &[u8], out: &mut [u32]) -> Numbers {
    // SAFETY: `call` is one of the seven declared above (this function is private, and no other is handed to it), and both slices are
    // valid for their lengths.
    unsafe { call(word.as_ptr(), word.len(), out.as_mut_ptr(), out.len()) }
}

/// Calls one of the archive's seven functions that count the words of a list of a word.
fn count_by(call: CountCall, word: &[u8]) -> Counted {
    // SAFETY: `call` is one of the seven declared above (this function is private, and no other is handed to it), and the word is valid
    // for its length.
    unsafe { call(word.as_ptr(), word.len()) }
}

/// Judges a pair.
pub fn judge(word: &[u8], head: Head, period: Period) -> Verdict {
    // SAFETY: the word is valid for its length.
    unsafe { luff_judge(word.as_ptr(), word.len(), head, period) }
}

/// Lists all Abelian periods and tries every pair in range.
pub fn list_plain(word: &[u8], out: &mut [u32]) -> Listed {
    list_by(luff_list_plain, word, out)
}

/// Lists all Abelian periods and tries the pairs whose head is not ruled out and whose period is at least L(h).
pub fn list_skipping(word: &[u8], out: &mut [u32]) -> Listed {
    list_by(luff_list_skipping, word, out)
}

/// Lists the full periods.
pub fn list_full(word: &[u8], out: &mut [u32]) -> Wrote {
    list_by(luff_list_full, word, out)
}

/// Lists the full periods by scaled positions.
pub fn list_full_scaled(word: &[u8], out: &mut [u32]) -> Scaled {
    list_by(luff_list_full_scaled, word, out)
}

/// Lists the Abelian squares.
pub fn list_squares(word: &[u8], out: &mut [u32]) -> Wrote {
    list_by(luff_list_squares, word, out)
}

/// Lists the Abelian runs, two words for each.
pub fn list_runs(word: &[u8], out: &mut [u32]) -> Wrote {
    list_by(luff_list_runs, word, out)
}

/// Writes a report.
pub fn report(word: &[u8], out: &mut [u32]) -> Wrote {
    list_by(luff_report, word, out)
}

/// Counts the words of [`list_plain`].
pub fn count_plain(word: &[u8]) -> Counted {
    count_by(luff_count_plain, word)
}

/// Counts the words of [`list_skipping`].
pub fn count_skipping(word: &[u8]) -> Counted {
    count_by(luff_count_skipping, word)
}

/// Counts the words of [`list_full`].
pub fn count_full(word: &[u8]) -> Counted {
    count_by(luff_count_full, word)
}

/// Counts the words of [`list_full_scaled`].
pub fn count_full_scaled(word: &[u8]) -> Counted {
    count_by(luff_count_full_scaled, word)
}

/// Counts the words of [`list_squares`].
pub fn count_squares(word: &[u8]) -> Counted {
    count_by(luff_count_squares, word)
}

/// Counts the words of [`list_runs`], two for each run.
pub fn count_runs(word: &[u8]) -> Counted {
    count_by(luff_count_runs, word)
}

/// Counts the words of [`report`].
pub fn count_report(word: &[u8]) -> Counted {
    count_by(luff_count_report, word)
}

/// Looks for a cover.
pub fn find_cover(word: &[u8]) -> Cover {
    // SAFETY: the word is valid for its length.
    unsafe { luff_find_cover(word.as_ptr(), word.len()) }
}

/// Lists the anagram windows of a pattern in a record.
pub fn list_windows(pattern: &[u8], record: &[u8], out: &mut [u32]) -> Wrote {
    // SAFETY: the three slices are valid for their lengths. Pattern and record are only read, so that one may be a part of the other.
    unsafe {
        luff_list_windows(
            pattern.as_ptr(),
            pattern.len(),
            record.as_ptr(),
            record.len(),
            out.as_mut_ptr(),
            out.len(),
        )
    }
}

/// Counts the words of [`list_windows`].
pub fn count_windows(pattern: &[u8], record: &[u8]) -> Counted {
    let (m, n) = (pattern.len(), record.len());
    // SAFETY: both slices are valid for their lengths.
    unsafe { luff_count_windows(pattern.as_ptr(), m, record.as_ptr(), n) }
}

/// Lists the square-free words of one length over the first letters.
pub fn list_square_free(alphabet: Alphabet, length: Length, out: &mut [u32]) -> Wrote {
    // SAFETY: the slice is valid for its length; the other two are numbers.
    unsafe { luff_list_square_free(alphabet, length, out.as_mut_ptr(), out.len()) }
}

/// Counts the words of [`list_square_free`].
pub fn count_square_free(alphabet: Alphabet, length: Length) -> Counted {
    // SAFETY: it takes two numbers and no pointer.
    unsafe { luff_count_square_free(alphabet, length) }
}

/// Makes the fields those of a fresh tracker, whatever stood there.
pub fn fresh(tracker: &mut Fields) {
    let (length, bytes, board) = (&mut tracker.length, &mut tracker.bytes, &mut tracker.board);
    let (live, ended) = (&mut tracker.live, &mut tracker.ended);
    // SAFETY: the fields are five places of one struct.
    unsafe { luff_tracker_fresh_fields(length, bytes, board, live, ended) }
}

/// The letter joins the end.
pub fn add(tracker: &mut Fields, letter: u8) -> Outcome {
    let (length, bytes, board) = (&mut tracker.length, &mut tracker.bytes, &mut tracker.board);
    let (live, ended) = (&mut tracker.live, &mut tracker.ended);
    // SAFETY: the fields are five places of one struct.
    unsafe { luff_tracker_add_fields(length, bytes, board, live, ended, letter) }
}

/// The last letter goes.
pub fn take_back(tracker: &mut Fields) -> Outcome {
    let (length, bytes, board) = (&mut tracker.length, &mut tracker.bytes, &mut tracker.board);
    let (live, ended) = (&mut tracker.live, &mut tracker.ended);
    // SAFETY: the fields are five places of one struct.
    unsafe { luff_tracker_take_back_fields(length, bytes, board, live, ended) }
}

/// Makes any tracker fresh. It is always accepted.
pub fn clear(tracker: &mut Fields) -> Outcome {
    let (length, bytes, board) = (&mut tracker.length, &mut tracker.bytes, &mut tracker.board);
    let (live, ended) = (&mut tracker.live, &mut tracker.ended);
    // SAFETY: the fields are five places of one struct.
    unsafe { luff_tracker_clear_fields(length, bytes, board, live, ended) }
}

/// Lists the pairs in range whose entry is 0: of a tracker made by its calls, the Abelian periods of the letters held.
pub fn list(tracker: &Fields, out: &mut [u32]) -> Wrote {
    let (bytes, board) = (&tracker.bytes, &tracker.board);
    // SAFETY: the fields are lent for reading, and the slice is valid for its length.
    unsafe { luff_tracker_list_fields(tracker.length, bytes, board, out.as_mut_ptr(), out.len()) }
}

/// Counts the words of [`list`].
pub fn count(tracker: &Fields) -> Counted {
    // SAFETY: the fields are lent for reading.
    unsafe { luff_tracker_count_fields(tracker.length, &tracker.bytes, &tracker.board) }
}

/// Makes the tracker fresh, makes a call on it for each byte, and lists once.
pub fn replay(tracker: &mut Fields, calls: &[u8], out: &mut [u32]) -> Replayed {
    // SAFETY: both slices are valid for their lengths, and the fields are five places of one struct.
    unsafe {
        luff_tracker_replay_fields(
            calls.as_ptr(),
            calls.len(),
            out.as_mut_ptr(),
            out.len(),
            &mut tracker.length,
            &mut tracker.bytes,
            &mut tracker.board,
            &mut tracker.live,
            &mut tracker.ended,
        )
    }
}
