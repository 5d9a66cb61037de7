//! Why a call was refused.
use crate::vocabulary::{LARGEST_ALPHABET, LONGEST, LONGEST_RECORD, LONGEST_SQUARE_FREE};
use core::fmt;

/// Why a call was refused, with the number and the value that the C header gives it.
#[derive(Clone, Copy, Debug, PartialEq, Eq)]
pub enum Refusal {
    /// 1: the word has more letters than the longest word. A pattern is a word; a record is none, and is never refused with it.
    TooLong,
    /// 2: a byte is no letter. Where there is a pattern and a record, it is the pattern's byte, or the record's where every byte of the
    /// pattern is a letter.
    NotALetter {
        /// The first such position, counted from 1 in the word, the pattern or the record; 1 for an add.
        position: usize,
    },
    /// 3: the list is longer than the slice.
    SliceTooShort {
        /// The words needed.
        needed: usize,
    },
    /// 4: an add at the longest word.
    TrackerFull,
    /// 5: a take-back at length 0.
    TrackerEmpty,
    /// 6: the tracker's length is too large, or a byte within it is no letter. No tracker made by its calls is damaged.
    TrackerDamaged,
    /// 7: the judge's pair is out of range for the word.
    PairOutOfRange,
    /// 8: the pattern has no letter.
    PatternEmpty,
    /// 9: the record has more bytes than the longest record.
    RecordTooLong,
    /// 10: a report, or its count, of a word of two or more letters that are all equal. Every other call takes such a word.
    OneLetter,
    /// 11: square-free words over no letters, or over more than the largest alphabet has.
    SquareFreeAlphabet,
    /// 12: square-free words that are longer than the longest that are listed.
    SquareFreeLength,
}

impl Refusal {
    /// What a call's first two numbers say: nothing where it is accepted, else the refusal.
    pub(crate) fn check(number: usize, value: usize) -> Result<(), Refusal> {
        match number {
            0 => Ok(()),
            1 => Err(Refusal::TooLong),
            2 => Err(Refusal::NotALetter { position: value }),
            3 => Err(Refusal::SliceTooShort { needed: value }),
            4 => Err(Refusal::TrackerFull),
            5 => Err(Refusal::TrackerEmpty),
            6 => Err(Refusal::TrackerDamaged),
            7 => Err(Refusal::PairOutOfRange),
            8 => Err(Refusal::PatternEmpty),
            9 => Err(Refusal::RecordTooLong),
            10 => Err(Refusal::OneLetter),
            11 => Err(Refusal::SquareFreeAlphabet),
            12 => Err(Refusal::SquareFreeLength),
            _ => unreachable!("the library has no refusal {number}"),
        }
    }

    /// The refusal's number, as in the header's `enum luff_refusal`.
    pub fn number(self) -> usize {
        match self {
            Refusal::TooLong => 1,
            Refusal::NotALetter { .. } => 2,
            Refusal::SliceTooShort { .. } => 3,
            Refusal::TrackerFull => 4,
            Refusal::TrackerEmpty => 5,
            Refusal::TrackerDamaged => 6,
            Refusal::PairOutOfRange => 7,
            Refusal::PatternEmpty => 8,
            Refusal::RecordTooLong => 9,
            Refusal::OneLetter => 10,
            Refusal::SquareFreeAlphabet => 11,
            Refusal::SquareFreeLength => 12,
        }
    }

    /// The refusal's value: a position, the words needed, or 0.
    pub fn value(self) -> usize {
        match self {
            Refusal::NotALetter { position } => position,
            Refusal::SliceTooShort { needed } => needed,
            _ => 0,
        }
    }
}

impl fmt::Display for Refusal {
    fn fmt(&self, f: &mut fmt::Formatter<'_>) -> fmt::Result {
        match self {
            Refusal::TooLong => write!(f, "the word has more than {LONGEST} letters"),
            Refusal::NotALetter { position } => {
                write!(f, "the byte at position {position} is no letter")
            }
            Refusal::SliceTooShort { needed } => write!(f, "the list needs {needed} places"),
            Refusal::TrackerFull => write!(f, "the tracker holds {LONGEST} letters"),
            Refusal::TrackerEmpty => write!(f, "the tracker holds no letter"),
            Refusal::TrackerDamaged => write!(f, "the tracker is damaged"),
            Refusal::PairOutOfRange => write!(f, "the pair is out of range for the word"),
            Refusal::PatternEmpty => write!(f, "the pattern has no letter"),
            Refusal::RecordTooLong => write!(f, "the record has more than {LONGEST_RECORD} bytes"),
            Refusal::OneLetter => write!(f, "all letters of the word are equal"),
            Refusal::SquareFreeAlphabet => {
                write!(
                    f,
                    "the alphabet has no letter or more than {LARGEST_ALPHABET}"
                )
            }
            Refusal::SquareFreeLength => {
                write!(f, "the length is above {LONGEST_SQUARE_FREE} letters")
            }
        }
    }
}

impl core::error::Error for Refusal {}
