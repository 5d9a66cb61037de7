//! Document 002's quasi-linear algorithm for full periods (Figures 1 and 2), without the line that adds n: by request C-18 a full period is
//! smaller.
use super::{index, word_refusal, write};
use crate::calls::Answer;
use luffbutton::{LETTERS, LONGEST};

/// The full periods by rising p, with s and T.
pub fn list_full_002(word: &[u8], out: &mut [u32]) -> Answer {
    if let Some(refusal) = word_refusal(word) {
        return refusal;
    }
    let n = word.len();
    if n == 0 {
        return Answer::default();
    }
    let mut share = [0; LETTERS];
    for &letter in word {
        share[index(letter)] += 1;
    }
    let g = share.into_iter().fold(0, common_divisor);
    share.iter_mut().for_each(|count| *count /= g);
    let s = n / g;
    let (scaled, t) = scaled_positions(word, s, &share);
    let mut found = Vec::new();
    for d in divisors(g) {
        if d >= t && d < g && (0..n).step_by(d * s).all(|k| scaled[k]) {
            found.push(full_word(n, d * s));
        }
    }
    let answer = write(&found, out);
    match answer.number {
        0 => Answer { s, t, ..answer },
        _ => answer,
    }
}

fn full_word(n: usize, p: usize) -> u32 {
    (3 << 28) | ((p << 14) | (n / p)) as u32
}

fn common_divisor(a: usize, b: usize) -> usize {
    let (mut a, mut b) = (a, b);
    while b != 0 {
        (a, b) = (b, a % b);
    }
    a
}

/// Figure 1: the word falls into shortest parts, of t times s letters each, in which each letter stands t times its share. Marks where
/// they begin, and gives the greatest t.
fn scaled_positions(word: &[u8], s: usize, share: &[usize; LETTERS]) -> ([bool; LONGEST], usize) {
    let mut scaled = [false; LONGEST];
    let (mut greatest, mut at) = (0, 0);
    while at < word.len() {
        scaled[at] = true;
        let mut counts = [0; LETTERS];
        let mut t = 0;
        loop {
            for &letter in &word[at..at + s] {
                counts[index(letter)] += 1;
            }
            at += s;
            t += 1;
            if (0..LETTERS).all(|c| counts[c] == t * share[c]) {
                break;
            }
        }
        greatest = greatest.max(t);
    }
    (scaled, greatest)
}

/// The divisors of g, rising, found up to its root.
fn divisors(g: usize) -> Vec<usize> {
    let below = (1..=g).take_while(|d| d * d <= g);
    let mut found: Vec<usize> = below.filter(|d| g % d == 0).collect();
    for i in (0..found.len()).rev() {
        let other = g / found[i];
        if other != found[i] {
            found.push(other);
        }
    }
    found
}
