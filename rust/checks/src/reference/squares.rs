//! Abelian squares.
use super::words::vector;

/// All half lengths q and starts i, counted from 1, with equal vectors of the two halves, by q and then i.
pub fn squares(word: &[u8]) -> Vec<(usize, usize)> {
    let n = word.len();
    let mut found = Vec::new();
    for q in 1..=n / 2 {
        for i in (1..=n).take_while(|i| i + 2 * q - 1 <= n) {
            let (first, second) = word[i - 1..i - 1 + 2 * q].split_at(q);
            if vector(first) == vector(second) {
                found.push((q, i));
            }
        }
    }
    found
}
