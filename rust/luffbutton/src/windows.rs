//! The calls on a pattern and a record.
use crate::numbers;
use crate::refusal::Refusal;
use crate::words::{counted, written};

/// Writes every start in the record at which a window as long as the pattern has the pattern's letters, each as often, in any order; rising,
/// each once. Returns how many: refusals 1, 2 of the pattern, 8, 9, 2 of the record, 3, in this order. A record shorter than the pattern
/// has none. [`findings`](crate::findings) reads the starts, counted from 1. A slice with as many places as the record has letters, or with
/// [`MOST_WINDOWS`](crate::MOST_WINDOWS), is never too short, so that the windows are not counted before they are written.
///
/// The pattern is a word; the record may have up to [`LONGEST_RECORD`](crate::LONGEST_RECORD) letters, and the pattern may be a part of it.
/// The time grows as the record does.
///
/// ```
/// use luffbutton::{findings, list_windows, Finding};
///
/// let mut out = [0; 6];
/// let written = list_windows(b"ab", b"abbaab", &mut out).unwrap();
/// // The windows ab, ba and ab.
/// let starts = [1, 3, 5].map(|start| Finding::Window { start });
/// assert!(findings(&out[..written]).eq(starts));
/// ```
pub fn list_windows(pattern: &[u8], record: &[u8], out: &mut [u32]) -> Result<usize, Refusal> {
    written(numbers::list_windows(pattern, record, out))
}

/// How many words [`list_windows`] writes of this pattern and this record, and so how many places it needs: refusals 1, 2 of the pattern,
/// 8, 9, 2 of the record.
///
/// ```
/// use luffbutton::count_windows;
///
/// assert_eq!(count_windows(b"ab", b"abbaab"), Ok(3));
/// ```
pub fn count_windows(pattern: &[u8], record: &[u8]) -> Result<usize, Refusal> {
    counted(numbers::count_windows(pattern, record))
}
