//! What the words of a list say.
use crate::vocabulary::{Head, Period};
use crate::words::Cover;

/// What a word of a list says.
#[derive(Clone, Copy, Debug, PartialEq, Eq)]
pub enum Finding {
    /// Kind 1: an Abelian period.
    Period {
        /// The length of its head.
        head: Head,
        /// The length of its blocks.
        period: Period,
    },
    /// Kind 2: an Abelian square.
    Square {
        /// The length of a half.
        half: usize,
        /// The first position.
        start: usize,
    },
    /// Kind 3: a full period, which is smaller than the word's length.
    Full {
        /// The length of its blocks.
        period: Period,
        /// How many blocks the word has, two or more.
        blocks: usize,
    },
    /// Kind 7: an anagram window of a pattern in a record.
    Window {
        /// The window's first position in the record.
        start: usize,
    },
    /// Kind 8: a report's first word.
    ReportHead {
        /// The word's length.
        length: usize,
        /// What [`find_cover`](crate::find_cover) answers of the word.
        cover: Cover,
    },
    /// Kind 9: a square-free word. [`SquareFreeWord::of`](crate::SquareFreeWord::of) gives its letters, since for these one has to know
    /// over how many letters it is and how long.
    SquareFree {
        /// The word read as a number, with a digit for each letter.
        number: usize,
    },
}

impl Finding {
    /// What the word says, or none where its kind is not one of these. A run is two words: each of them alone gives none, and
    /// [`Run::of`](crate::Run::of) reads both.
    pub fn of(word: u32) -> Option<Finding> {
        let upper = (word >> 14 & 0x3fff) as usize;
        let lower = (word & 0x3fff) as usize;
        match word >> 28 {
            1 => Some(Finding::Period {
                head: Head(lower),
                period: Period(upper),
            }),
            2 => Some(Finding::Square {
                half: upper,
                start: lower,
            }),
            3 => Some(Finding::Full {
                period: Period(upper),
                blocks: lower,
            }),
            // The start is the whole of what stands below the kind.
            7 => Some(Finding::Window {
                start: (word - (7 << 28)) as usize,
            }),
            8 => Some(Finding::ReportHead {
                length: upper,
                cover: match lower {
                    0 => Cover::Nothing,
                    m => Cover::Length(m),
                },
            }),
            // The number is the whole of what stands below the kind.
            9 => Some(Finding::SquareFree {
                number: (word - (9 << 28)) as usize,
            }),
            _ => None,
        }
    }
}

/// What the words of a list say, in their order. The words are those that a list call has written, `&out[..written]`; one of another kind
/// is passed over, and so are those of runs, which [`runs`](crate::runs) reads.
pub fn findings(words: &[u32]) -> impl DoubleEndedIterator<Item = Finding> + Clone + '_ {
    words.iter().filter_map(|&word| Finding::of(word))
}
