//! Random words and choices for tests and benchmarks. The same seed gives the same words on every machine.
use crate::reference::Pair;
use luffbutton::{Head, Period, FIRST_LETTER, LETTERS};

/// A generator of 64-bit numbers: a counter that rises by a fixed odd step, scrambled (Steele, Lea, Flood: SplitMix, 2014).
pub struct Generator {
    state: u64,
}

impl Generator {
    pub fn new(seed: u64) -> Generator {
        Generator { state: seed }
    }

    fn next(&mut self) -> u64 {
        self.state = self.state.wrapping_add(0x9e37_79b9_7f4a_7c15);
        let mut z = self.state;
        z = (z ^ (z >> 30)).wrapping_mul(0xbf58_476d_1ce4_e5b9);
        z = (z ^ (z >> 27)).wrapping_mul(0x94d0_49bb_1331_11eb);
        z ^ (z >> 31)
    }

    /// A number from 0 to `bound` - 1. The bounds here are small, so the remainder is even enough.
    pub fn below(&mut self, bound: usize) -> usize {
        (self.next() % bound as u64) as usize
    }

    /// True once in `times` on average.
    pub fn once_in(&mut self, times: usize) -> bool {
        self.below(times) == 0
    }

    /// Any byte.
    pub fn byte(&mut self) -> u8 {
        self.next() as u8
    }

    /// One of the items.
    pub fn pick<T: Copy>(&mut self, items: &[T]) -> T {
        items[self.below(items.len())]
    }

    pub fn shuffle<T>(&mut self, items: &mut [T]) {
        for i in (1..items.len()).rev() {
            items.swap(i, self.below(i + 1));
        }
    }

    /// One of the first k letters.
    pub fn letter(&mut self, k: usize) -> u8 {
        FIRST_LETTER + self.below(k) as u8
    }

    /// A word of n letters, each one of the first k.
    pub fn uniform(&mut self, n: usize, k: usize) -> Vec<u8> {
        (0..n).map(|_| self.letter(k)).collect()
    }

    /// A word of n letters, at least 1, of the first k, with an Abelian period that it is made of: one block's letters are shuffled for
    /// every block, and head and tail are the first letters of a shuffled block.
    pub fn cyclic(&mut self, n: usize, k: usize) -> (Vec<u8>, Pair) {
        let longest = if self.once_in(2) { n } else { n.min(8) };
        let p = 1 + self.below(longest);
        let h = self.below(p.min(n + 1 - p));
        let mut block = self.uniform(p, k);
        let mut word = Vec::new();
        self.shuffle(&mut block);
        word.extend(&block[..h]);
        while word.len() < n {
            self.shuffle(&mut block);
            word.extend(&block[..p.min(n - word.len())]);
        }
        let (head, period) = (Head(h), Period(p));
        (word, Pair { head, period })
    }

    /// A cyclic word of n letters, at least 1, with one letter changed.
    pub fn near_miss(&mut self, n: usize, k: usize) -> Vec<u8> {
        let (mut word, _) = self.cyclic(n, k);
        let at = self.below(n);
        let others = k.max(2) as u8;
        let old = word[at] - FIRST_LETTER;
        let step = 1 + self.below(usize::from(others) - 1) as u8;
        word[at] = FIRST_LETTER + (old + step) % others;
        word
    }
}

/// n letters, each one of the first k by chance: the same ones for the same n and k.
pub fn random(n: usize, k: usize) -> Vec<u8> {
    Generator::new(k as u64).uniform(n, k)
}

/// The first n letters of the Fibonacci word abaababa...
pub fn fibonacci(n: usize) -> Vec<u8> {
    let (mut shorter, mut word) = (vec![FIRST_LETTER + 1], vec![FIRST_LETTER]);
    while word.len() < n {
        let longer = [&word[..], &shorter[..]].concat();
        shorter = std::mem::replace(&mut word, longer);
    }
    word.truncate(n);
    word
}

/// n letters, the first two by turns.
pub fn alternating(n: usize) -> Vec<u8> {
    (0..n).map(|i| FIRST_LETTER + (i % 2) as u8).collect()
}

/// n letters: those of the block again and again.
pub fn repeated(block: &[u8], n: usize) -> Vec<u8> {
    block.iter().copied().cycle().take(n).collect()
}

/// n letters, abba repeated. There are many Abelian runs in it: 5,420 in 240 letters.
pub fn abba(n: usize) -> Vec<u8> {
    repeated(b"abba", n)
}

/// A word of n letters.
pub type Word = fn(usize) -> Vec<u8>;

/// The kind of word that no report takes.
const ONE_LETTER: &str = "one letter";

/// The kinds of words on which calls are timed. The last is of all letters.
pub const TIMED_WORDS: [(&str, Word); 7] = [
    (ONE_LETTER, |n| vec![FIRST_LETTER; n]),
    ("two by turns", alternating),
    ("Fibonacci", fibonacci),
    ("random of 2", |n| random(n, 2)),
    ("random of 4", |n| random(n, 4)),
    ("random of 16", |n| random(n, 16)),
    ("random of 26", |n| random(n, LETTERS)),
];

/// The words on which a call is timed: these, for runs also one that has many, and for a report only those that it takes.
pub fn timed_words(call: &str) -> Vec<(&'static str, Word)> {
    let mut words = TIMED_WORDS.to_vec();
    if call.ends_with("_runs") {
        words.push(("abba repeated", abba));
    }
    if call.contains("report") {
        words.retain(|&(name, _)| name != ONE_LETTER);
    }
    words
}
