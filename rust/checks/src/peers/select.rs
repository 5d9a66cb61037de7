//! Document 004's select-based algorithm (Figures 2 to 7), with document 01's corrections: the table of least periods starts at 1, and
//! the text decides over the listings. The loop over periods is the outer one, so that the pairs come in document 01's order.
use super::{between, exceeds, heads, index, period_word, prefix_counts, word_refusal};
use super::{write_with_trials, Counts, Row};
use crate::calls::Answer;
use luffbutton::{LETTERS, LONGEST};

/// The positions of each letter, one letter's behind the other's (S), where each letter's begin (C), and the letters that occur.
struct Select {
    positions: [u8; LONGEST],
    starts: [u8; LETTERS + 1],
    occurring: Vec<usize>,
}

impl Select {
    /// Figure 2.
    fn new(word: &[u8], counts: &Counts) -> Select {
        let totals = &counts[word.len()];
        let mut starts = [0; LETTERS + 1];
        for c in 0..LETTERS {
            starts[c + 1] = starts[c] + totals[c];
        }
        let mut next = starts;
        let mut positions = [0; LONGEST];
        for (i, &letter) in word.iter().enumerate() {
            let place = &mut next[index(letter)];
            positions[usize::from(*place)] = (i + 1) as u8;
            *place += 1;
        }
        let occurring = (0..LETTERS).filter(|&c| totals[c] > 0).collect();
        Select {
            positions,
            starts,
            occurring,
        }
    }

    /// The position of the letter's occurrence number i; 0 for i = 0, none where there are fewer.
    #[inline]
    fn position(&self, c: usize, i: usize) -> Option<usize> {
        let place = usize::from(self.starts[c]) + i;
        if i == 0 {
            Some(0)
        } else if place <= usize::from(self.starts[c + 1]) {
            Some(usize::from(self.positions[place - 1]))
        } else {
            None
        }
    }
}

/// All Abelian periods (Figure 7): only pairs that the bounds leave are tested.
pub fn list_select_based(word: &[u8], out: &mut [u32]) -> Answer {
    if let Some(refusal) = word_refusal(word) {
        return refusal;
    }
    let n = word.len();
    let counts = prefix_counts(word);
    let select = Select::new(word, &counts);
    let least = least_periods(word, &select);
    let mut found = Vec::new();
    let mut trials = 0;
    for p in 1..=n {
        for (h, &lowest) in least.iter().enumerate().take(heads(n, p)) {
            if p < lowest {
                continue;
            }
            trials += 1;
            if holds(&counts, &select, n, h, p) {
                found.push(period_word(h, p));
            }
        }
    }
    write_with_trials(&found, out, trials)
}

/// For each head up to the first that is ruled out: the least period that Figures 3 and 4 leave. All longer heads are ruled out too.
fn least_periods(word: &[u8], select: &Select) -> Vec<usize> {
    let n = word.len();
    let gaps = gaps(word);
    let mut in_head = [0; LETTERS];
    let mut reach: usize = 0;
    let mut least = Vec::with_capacity(n.div_ceil(2));
    for h in 0..n.div_ceil(2) {
        if h > 0 {
            let c = index(word[h - 1]);
            in_head[c] += 1;
            let Some(position) = select.position(c, 2 * in_head[c]) else {
                break;
            };
            reach = reach.saturating_sub(1).max(position - h);
        }
        least.push(reach.max(h + 1).max((gaps[h] + 1) / 2));
    }
    least
}

/// Figure 4: for each h the greatest distance between neighbouring occurrences of one letter behind position h.
fn gaps(word: &[u8]) -> [usize; LONGEST + 1] {
    let mut gaps = [0; LONGEST + 1];
    let mut next = [0; LETTERS];
    for h in (1..=word.len()).rev() {
        let c = index(word[h - 1]);
        let gap = if next[c] == 0 { 0 } else { next[c] - h };
        next[c] = h;
        gaps[h - 1] = gaps[h].max(gap);
    }
    gaps
}

/// Whether a pair that the bounds leave is an Abelian period. Its head is contained in the first block.
#[inline]
fn holds(counts: &Counts, select: &Select, n: usize, h: usize, p: usize) -> bool {
    let block = between(&counts[h], &counts[h + p]);
    match end_of_blocks(&counts[h], &block, select, n, h, p) {
        Some(end) => !exceeds(&counts[end], &counts[n], &block),
        None => false,
    }
}

/// Figure 6: where the last whole block ends, if all have the first one's vector. The next block has it where the letters'
/// occurrences that it has to bring are not behind its end.
#[inline]
fn end_of_blocks(
    head: &Row,
    block: &Row,
    select: &Select,
    n: usize,
    h: usize,
    p: usize,
) -> Option<usize> {
    let (mut end, mut blocks) = (h + p, 1);
    while end + p <= n {
        end += p;
        blocks += 1;
        for &c in &select.occurring {
            let due = usize::from(head[c]) + blocks * usize::from(block[c]);
            if select.position(c, due)? > end {
                return None;
            }
        }
    }
    Some(end)
}
