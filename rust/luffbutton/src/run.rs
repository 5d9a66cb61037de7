//! What the words of a list of runs say.
use crate::vocabulary::Period;

/// An Abelian run: two or more whole blocks side by side with equal counts, the block before them and the one behind them outside the
/// word or of other counts; and the hands, which are the longest stretches before the first block and behind the last one that are
/// contained in a block. The whole of it reaches from position `start - left` to position `end + right`.
#[derive(Clone, Copy, Debug, PartialEq, Eq)]
pub struct Run {
    /// d: the length of its blocks.
    pub period: Period,
    /// i: the first position of the first block.
    pub start: usize,
    /// j: the last position of the last block.
    pub end: usize,
    /// The length of the left hand, which ends at `start - 1`.
    pub left: usize,
    /// The length of the right hand, which begins at `end + 1`.
    pub right: usize,
}

impl Run {
    /// What two words say, one behind the other in a list; none where they are not the first of a run, kind 5, and its second, kind 6.
    pub fn of([first, second]: [u32; 2]) -> Option<Run> {
        if (first >> 28, second >> 28) != (5, 6) {
            return None;
        }
        Some(Run {
            period: Period((first >> 14 & 0x3fff) as usize),
            start: (first & 0x3fff) as usize,
            end: (second >> 16 & 0xfff) as usize,
            left: (second >> 8 & 0xff) as usize,
            right: (second & 0xff) as usize,
        })
    }
}

/// The runs of a list, in their order. The words are those that [`list_runs`](crate::list_runs) has written, `&out[..written]`, two for
/// each run; a word that is not one of two such is passed over.
pub fn runs(words: &[u32]) -> impl DoubleEndedIterator<Item = Run> + Clone + '_ {
    let neighbours = words.windows(2);
    neighbours.filter_map(|both| Run::of([both[0], both[1]]))
}
