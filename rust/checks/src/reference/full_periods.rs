//! Full periods, and the numbers s and T of the scaled path.
use super::periods::{is_period, Pair};
use super::words::vector;
use luffbutton::{Head, Period};

/// The Abelian periods with head 0 whose period divides n and is smaller, by rising p.
pub fn full_periods(word: &[u8]) -> Vec<usize> {
    let n = word.len();
    let head = Head(0);
    let full = |&p: &usize| {
        let period = Period(p);
        n % p == 0 && is_period(word, Pair { head, period })
    };
    (1..n).filter(full).collect()
}

/// The greatest number that divides both.
fn common_divisor(a: usize, b: usize) -> usize {
    let divides_both = |d: &usize| a % d == 0 && b % d == 0;
    (1..=a.max(b)).rev().find(divides_both).unwrap_or(0)
}

/// s and T: g is the greatest common divisor of the letter counts and s = n / g; T is the greatest distance between neighbouring
/// scaled positions, divided by s. Both are 0 for the empty word.
pub fn scaled(word: &[u8]) -> (usize, usize) {
    let n = word.len();
    if n == 0 {
        return (0, 0);
    }
    let g = vector(word).into_iter().fold(0, common_divisor);
    let s = n / g;
    let positions: Vec<usize> = (0..=n).filter(|&k| is_scaled(word, g, s, k)).collect();
    let distances = positions.windows(2).map(|both| both[1] - both[0]);
    let greatest = distances.max().expect("0 and n are scaled");
    (s, greatest / s)
}

/// Whether position k is scaled: s divides it, and each letter's count before it is k / s times its count in the word divided by g.
fn is_scaled(word: &[u8], g: usize, s: usize, k: usize) -> bool {
    let (before, whole) = (vector(&word[..k]), vector(word));
    let due = |count: usize| k / s * (count / g);
    k % s == 0
        && before
            .iter()
            .zip(whole)
            .all(|(&here, all)| here == due(all))
}
