//! Document 003's algorithm for Abelian runs (Theorem 10), in time n²: all squares by sliding windows, kept in an array L; maximal
//! repetitions by going through its rows and marking their squares; and the hands of each from the last hand at the same center. What a
//! hand is contained in is taken by C-11's words, since the paper has some ranges one letter too long.
use super::squares::slide;
use super::{index, word_refusal, write, Row, NONE};
use crate::calls::Answer;
use luffbutton::{BOUND_RUNS, LONGEST};

/// An entry of the array L.
#[derive(Clone, Copy, PartialEq, Eq)]
enum Entry {
    NoSquare,
    Square,
    Marked,
}

/// A row of the array L: an entry for each center, which is the number of letters before the middle of a square.
type Centers = [Entry; LONGEST];

/// All Abelian runs, by the length d of a block and then by start. The rows of L are gone through by rising d, each from left to right: so
/// each center gets its hands by rising d, as the paper has it, and the runs come in their order without being sorted.
pub fn list_runs_003(word: &[u8], out: &mut [u32]) -> Answer {
    if let Some(refusal) = word_refusal(word) {
        return refusal;
    }
    let n = word.len();
    let reversed: Vec<u8> = word.iter().rev().copied().collect();
    let (mut left_hands, mut right_hands) = (Hands::before(word), Hands::before(&reversed));
    let mut found = Vec::with_capacity(BOUND_RUNS);
    for (d, row) in (1..).zip(&mut squares(word)) {
        for first in d..=n - d {
            if row[first] == Entry::Square {
                let last = mark_repetition(&mut row[..=n - d], first, d);
                let left = left_hands.longest(first, d);
                let right = right_hands.longest(n - last, d);
                found.push(run_word(d, first - d + 1));
                found.push(hands_word(last + d, left, right));
            }
        }
    }
    write(&found, out)
}

fn run_word(d: usize, i: usize) -> u32 {
    (5 << 28) | ((d << 14) | i) as u32
}

fn hands_word(j: usize, left: usize, right: usize) -> u32 {
    (6 << 28) | ((j << 16) | (left << 8) | right) as u32
}

/// The array L: a row for each half length from 1 on.
fn squares(word: &[u8]) -> Vec<Centers> {
    let mut rows = vec![[Entry::NoSquare; LONGEST]; word.len() / 2];
    for (half, row) in (1..).zip(&mut rows) {
        slide(word, half, |start| row[start + half] = Entry::Square);
    }
    rows
}

/// Marks the squares of the repetition that begins with the square at this center, and returns the center of its last.
fn mark_repetition(row: &mut [Entry], first: usize, d: usize) -> usize {
    let mut last = first;
    row[first] = Entry::Marked;
    while let Some(next) = row.get_mut(last + d).filter(|next| **next == Entry::Square) {
        *next = Entry::Marked;
        last += d;
    }
    last
}

/// The last hand at a center: of a block that ends there, the longest stretch before the block that is contained in it.
#[derive(Clone, Copy)]
struct Hand {
    /// The letters of the block.
    block: usize,
    /// The letters of the hand.
    length: usize,
    /// By how much each letter's count in the block exceeds that in the hand.
    room: Row,
}

/// The hands before blocks, by center. Those behind blocks are these of the reversed word.
struct Hands<'a> {
    word: &'a [u8],
    last: Vec<Hand>,
}

impl Hands<'_> {
    fn before(word: &[u8]) -> Hands<'_> {
        let none = Hand {
            block: 0,
            length: 0,
            room: NONE,
        };
        Hands {
            word,
            last: vec![none; word.len()],
        }
    }

    /// The length of the hand of a block that is longer than the last one at this center and has no block of equal counts before it. The
    /// block takes letters on its left, which leave the last hand as far as they stand in it: all of that is gone (case 1), or the rest
    /// is contained in the longer block (case 2). Then the hand grows while its next letter has room; it does not become as long as the
    /// block, since its counts would be equal then.
    fn longest(&mut self, center: usize, block: usize) -> usize {
        let hand = &mut self.last[center];
        let joining = &self.word[center - block..center - hand.block];
        let leaving = joining.len().min(hand.length);
        for (k, &letter) in joining.iter().rev().enumerate() {
            hand.room[index(letter)] += 1 + u8::from(k < leaving);
        }
        hand.block = block;
        hand.length -= leaving;
        let before = &self.word[..center - block - hand.length];
        for &letter in before.iter().rev() {
            let room = &mut hand.room[index(letter)];
            if *room == 0 {
                break;
            }
            *room -= 1;
            hand.length += 1;
        }
        hand.length
    }
}
