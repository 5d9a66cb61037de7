//! Abelian runs, in the words of request C-11.
use super::words::{contained, vector};

/// A maximal repetition, which is the whole blocks of d letters from position i to position j, and the lengths of its hands.
#[derive(Clone, Copy, Debug, PartialEq, Eq)]
pub struct Run {
    pub d: usize,
    pub i: usize,
    pub j: usize,
    pub left: usize,
    pub right: usize,
}

/// All Abelian runs, by d and then i. Every stretch of two or more blocks is tried.
pub fn runs(word: &[u8]) -> Vec<Run> {
    let n = word.len();
    let mut found = Vec::new();
    for d in 1..=n {
        for i in 1..=n {
            for j in (i - 1 + 2 * d..=n).step_by(d) {
                if is_maximal(word, d, i, j) {
                    found.push(with_hands(word, d, i, j));
                }
            }
        }
    }
    found
}

/// The letters from one position to another.
fn stretch(word: &[u8], from: usize, to: usize) -> &[u8] {
    &word[from - 1..to]
}

/// Whether the blocks of d letters from i to j have equal vectors, and the block before i and the one after j lie outside the word or
/// differ.
fn is_maximal(word: &[u8], d: usize, i: usize, j: usize) -> bool {
    let block = vector(stretch(word, i, i + d - 1));
    let has_block = |part: &[u8]| vector(part) == block;
    let goes_back = || i > d && has_block(stretch(word, i - d, i - 1));
    let goes_on = || j + d <= word.len() && has_block(stretch(word, j + 1, j + d));
    stretch(word, i, j).chunks(d).all(has_block) && !goes_back() && !goes_on()
}

/// The maximal repetition with its hands: the longest stretches ending at i - 1 and beginning at j + 1 that are contained in a block.
fn with_hands(word: &[u8], d: usize, i: usize, j: usize) -> Run {
    let block = vector(stretch(word, i, i + d - 1));
    let in_block = |part: &[u8]| contained(&vector(part), &block);
    let on_the_left = |&k: &usize| in_block(stretch(word, i - k, i - 1));
    let on_the_right = |&k: &usize| in_block(stretch(word, j + 1, j + k));
    let left = (0..i).rev().find(on_the_left);
    let right = (0..=word.len() - j).rev().find(on_the_right);
    let (Some(left), Some(right)) = (left, right) else {
        panic!("the stretch of no letters is contained in a block");
    };
    Run {
        d,
        i,
        j,
        left,
        right,
    }
}

#[cfg(test)]
mod tests {
    use super::*;

    /// The runs as document 003 writes them: the left hand, i, j, d, the right hand.
    fn tuples(word: &[u8]) -> Vec<(usize, usize, usize, usize, usize)> {
        let tuple = |run: Run| (run.left, run.i, run.j, run.d, run.right);
        runs(word).into_iter().map(tuple).collect()
    }

    #[test]
    fn the_run_that_the_request_gives() {
        let due = Run {
            d: 3,
            i: 1,
            j: 6,
            left: 0,
            right: 2,
        };
        assert!(runs(b"abaababa").contains(&due));
    }

    /// The runs below document 003's Figure 2. The word in its caption has a b more than they fit.
    #[test]
    fn the_runs_of_figure_2() {
        let due = [
            (0, 1, 2, 1, 0),
            (0, 3, 4, 1, 0),
            (0, 7, 8, 1, 0),
            (0, 9, 10, 1, 0),
            (0, 11, 14, 1, 0),
            (1, 2, 5, 2, 0),
            (1, 8, 11, 2, 1),
            (0, 11, 14, 2, 0),
            (0, 7, 12, 3, 2),
        ];
        assert_eq!(tuples(b"aabbacbbaabbbb"), due);
    }

    /// The maximal repetitions of document 003's Figure 4, with their letters. It says that aaa begins at 3; in the word it does at 2.
    #[test]
    fn the_repetitions_of_figure_4() {
        let word = b"caaabababac";
        let shown = |run: Run| (run.d, run.i, stretch(word, run.i, run.j));
        let due: [(usize, usize, &[u8]); 4] = [
            (1, 2, b"aaa"),
            (2, 4, b"ababab"),
            (2, 5, b"bababa"),
            (3, 3, b"aababa"),
        ];
        assert!(runs(word).into_iter().map(shown).eq(due));
    }

    /// Of n equal letters there is one maximal repetition for each d and each i up to d, as far as two blocks fit; its hands are what
    /// is left on both sides.
    #[test]
    fn runs_of_one_letter() {
        for n in 0..=60 {
            let mut due = Vec::new();
            for d in 1..=n / 2 {
                for i in (1..=d).take_while(|i| i - 1 + 2 * d <= n) {
                    let (left, right) = (i - 1, (n + 1 - i) % d);
                    due.push((left, i, n - right, d, right));
                }
            }
            assert_eq!(tuples(&vec![b'a'; n]), due, "n = {n}");
        }
    }
}
