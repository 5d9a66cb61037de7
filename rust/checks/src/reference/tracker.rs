//! The tracker in two ways: the machine, a list of letters, and the step by fields that holds for every tracker, also one that no
//! calls have made.
use super::periods::{in_range, is_period, pairs, periods, Pair};
use super::words::is_letter;
use super::{period_words, write};
use crate::calls::Answer;
use luffbutton::{Fields, BOARD, CLEAR, LONGEST, TAKE_BACK};
use std::sync::OnceLock;

/// The pairs of a board's entries, in their order.
fn board_pairs() -> &'static [Pair] {
    static PAIRS: OnceLock<Vec<Pair>> = OnceLock::new();
    PAIRS.get_or_init(|| pairs(LONGEST))
}

/// The machine that document 01 compares a tracker with: a list of letters.
#[derive(Default)]
pub struct Machine {
    pub letters: Vec<u8>,
}

impl Machine {
    pub fn add(&mut self, letter: u8) -> Answer {
        if !is_letter(letter) {
            return Answer::refused(2, 1);
        }
        if self.letters.len() == LONGEST {
            return Answer::refused(4, 0);
        }
        self.letters.push(letter);
        Answer::default()
    }

    pub fn take_back(&mut self) -> Answer {
        match self.letters.pop() {
            Some(_) => Answer::default(),
            None => Answer::refused(5, 0),
        }
    }

    pub fn clear(&mut self) -> Answer {
        self.letters.clear();
        Answer::default()
    }

    pub fn list(&self, out: &mut [u32]) -> Answer {
        write(&period_words(&periods(&self.letters)), out)
    }

    /// The number of its letters' periods; the letters are kept.
    pub fn count(&self) -> Answer {
        Answer::of_words(periods(&self.letters).len())
    }

    /// The one tracker that holds its letters: with their ended lengths, their periods live, and all other pairs in range ended.
    pub fn tracker(&self, prefixes: &mut Prefixes) -> Fields {
        let n = self.letters.len();
        let mut tracker = Fields::zero();
        tracker.length = n;
        tracker.bytes[..n].copy_from_slice(&self.letters);
        prefixes.follow(&self.letters);
        tracker.board = prefixes.board();
        tracker.live = periods(&self.letters).len();
        tracker.ended = (n + 1) / 2 * ((n + 2) / 2) - tracker.live;
        tracker
    }
}

/// A word that changes at its end, with every pair judged once on each of its prefixes, so that the ended lengths of a long word can
/// be had after each change.
#[derive(Default)]
pub struct Prefixes {
    letters: Vec<u8>,
    /// For each prefix, from one letter on, and each pair of a board: whether the pair is in range and no Abelian period.
    failing: Vec<Vec<bool>>,
}

impl Prefixes {
    /// Takes on another word: keeps what was judged of the prefixes that both have, and judges the rest.
    pub fn follow(&mut self, word: &[u8]) {
        let both = self.letters.iter().zip(word);
        let common = both.take_while(|(a, b)| a == b).count();
        self.letters.truncate(common);
        self.failing.truncate(common);
        for m in common + 1..=word.len() {
            self.failing.push(failing(&word[..m]));
        }
        self.letters = word.to_vec();
    }

    /// The ended length of each pair of a board: the smallest m from h + p on at which it fails, or 0.
    pub fn board(&self) -> [u8; BOARD] {
        let mut board = [0; BOARD];
        for (place, pair) in board_pairs().iter().enumerate() {
            let from = pair.head.0 + pair.period.0;
            let fails = |m: &usize| self.failing[m - 1][place];
            board[place] = (from..=self.letters.len()).find(fails).unwrap_or(0) as u8;
        }
        board
    }
}

/// For each pair of a board: whether it is in range for the word and no Abelian period of it.
fn failing(word: &[u8]) -> Vec<bool> {
    let mut failing = vec![false; BOARD];
    let not_longer = |pair: &Pair| pair.period.0 <= word.len();
    let up_to_n = board_pairs().iter().copied().take_while(not_longer);
    for (place, pair) in up_to_n.enumerate() {
        failing[place] = in_range(word.len(), pair) && !is_period(word, pair);
    }
    failing
}

/// Refusal 6: the length is above 240, or a byte within the length is no letter.
fn damaged(tracker: &Fields) -> bool {
    let held = tracker.bytes.iter().take(tracker.length);
    tracker.length > LONGEST || held.into_iter().any(|&byte| !is_letter(byte))
}

/// The totals of request C-19, each by a count of its own: of the pairs in range for the length, those whose entry is 0 and those whose entry
/// isn't.
fn set_totals(tracker: &mut Fields) {
    let (n, entries) = (tracker.length, tracker.board.iter().zip(board_pairs()));
    let in_range = entries.filter(|(_, &pair)| in_range(n, pair));
    tracker.live = in_range.clone().filter(|(&entry, _)| entry == 0).count();
    tracker.ended = in_range.filter(|(&entry, _)| entry != 0).count();
}

/// Add by fields: refusals 6, 2, 4, else the letter is stored, and each entry 0 whose pair is then in range and no Abelian period
/// of the letters held is set to the new length.
pub fn add(tracker: &mut Fields, letter: u8) -> Answer {
    if damaged(tracker) {
        return Answer::refused(6, 0);
    }
    if !is_letter(letter) {
        return Answer::refused(2, 1);
    }
    if tracker.length == LONGEST {
        return Answer::refused(4, 0);
    }
    tracker.bytes[tracker.length] = letter;
    tracker.length += 1;
    let held = &tracker.bytes[..tracker.length];
    for (entry, &pair) in tracker.board.iter_mut().zip(board_pairs()) {
        if *entry == 0 && in_range(held.len(), pair) && !is_period(held, pair) {
            *entry = held.len() as u8;
        }
    }
    set_totals(tracker);
    Answer::default()
}

/// Take-back by fields: refusals 6, 5, else the last byte and each entry equal to the old length become 0.
pub fn take_back(tracker: &mut Fields) -> Answer {
    if damaged(tracker) {
        return Answer::refused(6, 0);
    }
    if tracker.length == 0 {
        return Answer::refused(5, 0);
    }
    for entry in &mut tracker.board {
        if usize::from(*entry) == tracker.length {
            *entry = 0;
        }
    }
    tracker.length -= 1;
    tracker.bytes[tracker.length] = 0;
    set_totals(tracker);
    Answer::default()
}

/// The pairs in range whose entry is 0.
fn open_pairs(tracker: &Fields) -> Vec<Pair> {
    let mut open = Vec::new();
    for (entry, &pair) in tracker.board.iter().zip(board_pairs()) {
        if *entry == 0 && in_range(tracker.length, pair) {
            open.push(pair);
        }
    }
    open
}

/// List by fields: refusals 6, 3, else the pairs in range whose entry is 0.
pub fn list(tracker: &Fields, out: &mut [u32]) -> Answer {
    if damaged(tracker) {
        return Answer::refused(6, 0);
    }
    write(&period_words(&open_pairs(tracker)), out)
}

/// Count by fields: refusal 6, else the number of these pairs.
pub fn count(tracker: &Fields) -> Answer {
    if damaged(tracker) {
        return Answer::refused(6, 0);
    }
    Answer::of_words(open_pairs(tracker).len())
}

/// A replay: the calls on the machine, then one list. The tracker afterwards holds the machine's word and its ended lengths; the
/// answer is the list's, with the number of calls that were refused.
pub fn replay(tracker: &mut Fields, calls: &[u8], out: &mut [u32]) -> Answer {
    let mut machine = Machine::default();
    let mut refusals = 0;
    for &call in calls {
        let answer = match call {
            TAKE_BACK => machine.take_back(),
            CLEAR => machine.clear(),
            letter => machine.add(letter),
        };
        refusals += usize::from(answer.number != 0);
    }
    *tracker = machine.tracker(&mut Prefixes::default());
    Answer {
        refused: refusals,
        ..machine.list(out)
    }
}
