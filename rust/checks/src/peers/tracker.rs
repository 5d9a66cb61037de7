//! The tracker's add in plain Rust, in place: once with the library's contract, for any tracker, and once as document 004's on-line
//! algorithm (Figure 8), which trusts that its own calls made the tracker.
use super::{between, differs, exceeds, heads, holds, index, is_letter, prefix_counts};
use super::{Counts, Row, NONE};
use crate::calls::Answer;
use luffbutton::{Fields, BOARD, LONGEST};

/// Add by fields, as document 01 has it for every tracker: each entry 0 in range is tested anew, and the live ones are counted (C-19).
pub fn add_in_place(tracker: &mut Fields, letter: u8) -> Answer {
    let old = tracker.length;
    if old > LONGEST || tracker.bytes[..old].iter().any(|&byte| !is_letter(byte)) {
        return Answer::refused(6, 0);
    }
    if !is_letter(letter) {
        return Answer::refused(2, 1);
    }
    if old == LONGEST {
        return Answer::refused(4, 0);
    }
    tracker.bytes[old] = letter;
    tracker.length = old + 1;
    let n = tracker.length;
    let counts = prefix_counts(&tracker.bytes[..n]);
    let mut start = 0;
    let mut live = 0;
    for p in 1..=n {
        let row = &mut tracker.board[start..start + heads(n, p)];
        for (h, entry) in row.iter_mut().enumerate() {
            if *entry == 0 {
                if holds(&counts, n, h, p) {
                    live += 1;
                } else {
                    *entry = n as u8;
                }
            }
        }
        start += heads(LONGEST, p);
    }
    tracker.live = live;
    tracker.ended = (n + 1) / 2 * ((n + 2) / 2) - live;
    Answer::default()
}

/// A tracker that keeps its prefix counts and tests of each live pair only what the new letter can change. It has no totals, as document
/// 004's algorithm has none.
#[derive(Clone)]
pub struct OnLine {
    pub length: usize,
    pub bytes: [u8; LONGEST],
    pub board: [u8; BOARD],
    counts: Counts,
}

impl OnLine {
    pub fn fresh() -> OnLine {
        OnLine {
            length: 0,
            bytes: [0; LONGEST],
            board: [0; BOARD],
            counts: [NONE; LONGEST + 1],
        }
    }

    /// The letter joins the end; a pair that it ends gets the new length.
    pub fn add(&mut self, letter: u8) -> Answer {
        if !is_letter(letter) {
            return Answer::refused(2, 1);
        }
        if self.length == LONGEST {
            return Answer::refused(4, 0);
        }
        let mut row: Row = self.counts[self.length];
        row[index(letter)] += 1;
        self.bytes[self.length] = letter;
        self.length += 1;
        let n = self.length;
        self.counts[n] = row;
        let mut start = 0;
        for p in 1..=n {
            let row = &mut self.board[start..start + heads(n, p)];
            for (h, entry) in row.iter_mut().enumerate() {
                if *entry == 0 && !still_holds(&self.counts, n, h, p) {
                    *entry = n as u8;
                }
            }
            start += heads(LONGEST, p);
        }
        Answer::default()
    }
}

/// Whether (h, p), an Abelian period of the first n - 1 letters or just come in range, is one of the first n: the last block that is
/// whole, or the tail, is held against the block before it, and the head of a new pair against its only block.
fn still_holds(counts: &Counts, n: usize, h: usize, p: usize) -> bool {
    if h + p == n {
        let block = between(&counts[h], &counts[n]);
        return !exceeds(&counts[0], &counts[h], &block);
    }
    let tail = ((n - h) as u32 % p as u32) as usize;
    if tail == 0 {
        let before = between(&counts[n - 2 * p], &counts[n - p]);
        !differs(&counts[n - p], &counts[n], &before)
    } else {
        let before = between(&counts[n - tail - p], &counts[n - tail]);
        !exceeds(&counts[n - tail], &counts[n], &before)
    }
}
