//! Anagram windows by one window that slides over the record, as request C-13 has it: one letter joins, one leaves, and the number of
//! letters in whose counts window and pattern differ is kept, so that no window is counted anew.
use super::{is_letter, word_refusal, write};
use crate::calls::Answer;
use luffbutton::LONGEST_RECORD;

/// All windows, collected in a vector in one pass and copied to the slice where they fit, as the other peers do it.
pub fn list_windows_collected(pattern: &[u8], record: &[u8], out: &mut [u32]) -> Answer {
    if let Some(refusal) = windows_refusal(pattern, record) {
        return refusal;
    }
    let mut found = Vec::new();
    slide(pattern, record, |start, fits| {
        if fits {
            found.push(window_word(start));
        }
    });
    write(&found, out)
}

/// The same without a vector: one pass counts the windows, and where they fit a second one writes them.
pub fn list_windows_in_two_passes(pattern: &[u8], record: &[u8], out: &mut [u32]) -> Answer {
    if let Some(refusal) = windows_refusal(pattern, record) {
        return refusal;
    }
    let needed = count(pattern, record);
    if needed > out.len() {
        return Answer::refused(3, needed);
    }
    let mut places = out.iter_mut();
    slide(pattern, record, |start, fits| {
        if fits {
            let place = places.next().expect("a place for each window counted");
            *place = window_word(start);
        }
    });
    Answer::of_words(needed)
}

/// How many windows there are.
pub fn count_windows_sliding(pattern: &[u8], record: &[u8]) -> Answer {
    windows_refusal(pattern, record).unwrap_or_else(|| Answer::of_words(count(pattern, record)))
}

fn window_word(start: usize) -> u32 {
    (7 << 28) | start as u32
}

fn count(pattern: &[u8], record: &[u8]) -> usize {
    let mut windows = 0;
    slide(pattern, record, |_, fits| windows += usize::from(fits));
    windows
}

/// The pattern's refusals, then those of the record. Whether all its bytes are letters is asked without an exit inside, so that it becomes a
/// few vector instructions; only where one is none its position is looked for.
fn windows_refusal(pattern: &[u8], record: &[u8]) -> Option<Answer> {
    if let Some(refusal) = word_refusal(pattern) {
        return Some(refusal);
    }
    if pattern.is_empty() {
        return Some(Answer::refused(8, 0));
    }
    if record.len() > LONGEST_RECORD {
        return Some(Answer::refused(9, 0));
    }
    if record.iter().fold(true, |all, &byte| all & is_letter(byte)) {
        return None;
    }
    let outside = record.iter().position(|&byte| !is_letter(byte))?;
    Some(Answer::refused(2, outside + 1))
}

/// By how much each byte's count in the window exceeds that in the pattern, modulo 256, and how many of these are not 0. Neither has more
/// than 240 letters, so that 0 means equal counts. There is an entry for each byte, not only for letters, so that a byte needs no check.
struct Difference {
    counts: [u8; 256],
    differing: u8,
}

impl Difference {
    #[inline]
    fn change(&mut self, letter: u8, by: u8) {
        let count = &mut self.counts[usize::from(letter)];
        self.differing += u8::from(*count == 0);
        *count = count.wrapping_add(by);
        self.differing -= u8::from(*count == 0);
    }

    #[inline]
    fn joins(&mut self, letter: u8) {
        self.change(letter, 1);
    }

    #[inline]
    fn leaves(&mut self, letter: u8) {
        self.change(letter, u8::MAX);
    }

    #[inline]
    fn is_none(&self) -> bool {
        self.differing == 0
    }
}

/// Looks at each window of the record in turn: its start, counted from 1, and whether it has the pattern's counts.
#[inline]
fn slide(pattern: &[u8], record: &[u8], mut look: impl FnMut(usize, bool)) {
    let Some((first, behind)) = record.split_at_checked(pattern.len()) else {
        return;
    };
    let mut difference = Difference {
        counts: [0; 256],
        differing: 0,
    };
    for (&joining, &leaving) in first.iter().zip(pattern) {
        difference.joins(joining);
        difference.leaves(leaving);
    }
    look(1, difference.is_none());
    for (start, (&leaving, &joining)) in (2..).zip(record.iter().zip(behind)) {
        difference.leaves(leaving);
        difference.joins(joining);
        look(start, difference.is_none());
    }
}
