//! The sizes, and the types that all calls share.

/// How many letters there are.
pub const LETTERS: usize = 26;

/// The byte of the letter a, from which the letters go up.
pub const FIRST_LETTER: u8 = b'a';

/// The longest word.
pub const LONGEST: usize = 240;

/// The longest record in which windows are looked for.
pub const LONGEST_RECORD: usize = 65536;

/// The most letters over which square-free words are listed.
pub const LARGEST_ALPHABET: usize = 4;

/// The longest square-free words that are listed.
pub const LONGEST_SQUARE_FREE: usize = 12;

/// A board's entries, one for each pair in range for the longest word.
pub const BOARD: usize = 14520;

/// The most words that a list of periods can have.
pub const MOST_PERIODS: usize = BOARD;

/// The most words that a list of squares can have.
pub const MOST_SQUARES: usize = 14400;

/// The most words that a list of full periods can have: so many numbers below 240 divide it.
pub const MOST_FULL: usize = 19;

/// A bound on the words of a list of runs: no list has more. No two runs of one block length start one block apart, and a run takes two
/// words. It is a bound and not the most words that a list can have, which we do not know; the longest list that we have met, that of
/// `aabb` sixty times, has 10,940.
pub const BOUND_RUNS: usize = 17682;

/// The most words that a list of windows can have: a start for each letter of the longest record, where the pattern has one letter.
pub const MOST_WINDOWS: usize = LONGEST_RECORD;

/// The most words that a list of square-free words can have: those of the greatest length over the most letters.
pub const MOST_SQUARE_FREE: usize = 51120;

/// Places enough for the report of every word: its head and the three lists. It is a bound that no report reaches, since only a word whose
/// letters are all equal has so many periods, and of that there is no report. The longest report we do not know.
pub const MOST_REPORT: usize = 1 + MOST_FULL + MOST_PERIODS + MOST_SQUARES;

/// The byte that takes back the last letter in a list of calls for a replay.
pub const TAKE_BACK: u8 = b'-';

/// The byte that clears the tracker in a list of calls for a replay.
pub const CLEAR: u8 = b'!';

/// The length of a head. It is never taken for a period's length.
#[repr(C)]
#[derive(Clone, Copy, Debug, PartialEq, Eq, PartialOrd, Ord)]
pub struct Head(pub usize);

/// The length of a block. It is never taken for a head's length.
#[repr(C)]
#[derive(Clone, Copy, Debug, PartialEq, Eq, PartialOrd, Ord)]
pub struct Period(pub usize);

/// Over how many letters words are listed: the first so many, from a on. It is never taken for the words' length.
#[repr(C)]
#[derive(Clone, Copy, Debug, PartialEq, Eq, PartialOrd, Ord)]
pub struct Alphabet(pub usize);

/// The length of the words that are listed. It is never taken for the size of their alphabet.
#[repr(C)]
#[derive(Clone, Copy, Debug, PartialEq, Eq, PartialOrd, Ord)]
pub struct Length(pub usize);

/// A tracker's fields, laid out as `struct luff_tracker` of the C interface.
#[repr(C)]
#[derive(Clone, PartialEq, Eq)]
pub struct Fields {
    /// How many letters it holds.
    pub length: usize,
    /// The letters, and 0 beyond the length.
    pub bytes: [u8; LONGEST],
    /// The ended length of each pair in range for the longest word, by p and then h: the smallest m from h + p to the length at which
    /// the pair is no Abelian period of the first m letters, or 0.
    pub board: [u8; BOARD],
    /// How many pairs in range for the length have the entry 0. Each add, take-back and clear that is accepted sets it, and no call reads it.
    pub live: usize,
    /// How many of them have another entry. It is set with `live`, and not read either.
    pub ended: usize,
}

impl Fields {
    /// All zero: the fields of a fresh tracker.
    pub const fn zero() -> Fields {
        Fields {
            length: 0,
            bytes: [0; LONGEST],
            board: [0; BOARD],
            live: 0,
            ended: 0,
        }
    }
}
