//! Full periods (request C-18): a word's length is none, and remains the period of a pair with head 0. Both paths, their counts and a tracker's
//! pairs with head 0 are held against blocks whose letters are sorted; neither the library nor the second implementation goes that way.
use crate::support::{lent, not_a_letter, seeded, shown, tracked, BOTH};
use checks::calls::{Answer, Calls};
use checks::generator::{abba, alternating, fibonacci, Generator};
use checks::library::Library;
use luffbutton::{findings, Fields, Finding, Head, Period};
use luffbutton::{FIRST_LETTER, LONGEST, MOST_FULL, MOST_REPORT};

/// What a list call writes, read.
fn listed(list: impl FnOnce(&mut [u32]) -> Answer) -> (Answer, Vec<Finding>) {
    let (answer, out) = lent(MOST_REPORT, list);
    (answer, findings(&out[..answer.written]).collect())
}

/// The numbers p, rising, such that the word is two or more blocks of p letters that are permutations of each other.
fn by_sorting(word: &[u8]) -> Vec<usize> {
    let sorted = |block: &[u8]| {
        let mut letters = block.to_vec();
        letters.sort_unstable();
        letters
    };
    let alike = |p: usize| {
        let mut blocks = word.chunks(p);
        let first = blocks.next().map(sorted);
        blocks.all(|block| Some(sorted(block)) == first)
    };
    (1..word.len()).filter(|&p| alike(p)).collect()
}

/// Asserts that both paths and their counts have just the full periods that are found by sorting, and so has a tracker that holds the word,
/// by its pairs with head 0 whose period divides the length and is smaller. The length itself is the period of such a pair. Returns the
/// full periods.
fn assert_held(tracker: &Fields) -> Vec<usize> {
    let word = &tracker.bytes[..tracker.length];
    let _shown = shown(word);
    let (n, due) = (word.len(), by_sorting(word));
    assert!(due.len() <= MOST_FULL);
    let finding = |&p: &usize| Finding::Full {
        period: Period(p),
        blocks: n / p,
    };
    let findings: Vec<Finding> = due.iter().map(finding).collect();
    assert_eq!(listed(|out| Library.list_full(word, out)).1, findings);
    let scaled = listed(|out| Library.list_full_scaled(word, out)).1;
    assert_eq!(scaled, findings);
    let counted = [Library.count_full(word), Library.count_full_scaled(word)];
    assert_eq!(counted, [Answer::of_words(due.len()); 2]);
    let without_head = |found: Finding| match found {
        Finding::Period {
            head: Head(0),
            period,
        } => Some(period.0),
        _ => None,
    };
    let pairs = listed(|out| Library.list(tracker, out)).1.into_iter();
    let periods: Vec<usize> = pairs.filter_map(without_head).collect();
    let full = periods.iter().copied().filter(|p| n % p == 0 && *p < n);
    assert!(full.eq(due.iter().copied()));
    assert_eq!(periods.last().copied(), (n > 0).then_some(n));
    due
}

/// The same of a tracker to which the word's letters are added.
fn assert_full(word: &[u8]) -> Vec<usize> {
    assert_held(&tracked(&Library, word))
}

/// The request's words: with s and T as before, and what the report has of them.
#[test]
fn words_of_the_request() {
    let table: [(&[u8], &[usize], usize, usize); 6] = [
        (b"", &[], 0, 0),
        (b"a", &[], 1, 1),
        (b"aa", &[1], 1, 1),
        (b"abb", &[], 3, 1),
        (b"abab", &[2], 2, 1),
        (b"aabb", &[], 2, 2),
    ];
    for (word, due, s, t) in table {
        assert_eq!(assert_full(word), due);
        for calls in BOTH {
            let (answer, _) = listed(|out| calls.list_full_scaled(word, out));
            assert_eq!((answer.s, answer.t), (s, t));
            let (reported, found) = listed(|out| calls.report(word, out));
            let full = found.iter().filter(|x| matches!(x, Finding::Full { .. }));
            let refused = word == b"aa";
            assert_eq!(reported.number, if refused { 10 } else { 0 });
            assert_eq!(full.count(), if refused { 0 } else { due.len() });
        }
    }
}

/// Of equal letters every divisor of the length but itself is a full period; 240 has more than any other length, and `MOST_FULL` of them.
#[test]
fn words_of_one_letter() {
    for n in 0..=LONGEST {
        let divisors: Vec<usize> = (1..n).filter(|p| n % p == 0).collect();
        assert_eq!(assert_full(&vec![FIRST_LETTER; n]), divisors);
        assert_eq!(divisors.len() == MOST_FULL, n == LONGEST);
    }
}

/// So many blocks of p letters, each the first one shuffled.
fn blocks(generator: &mut Generator, p: usize, times: usize, k: usize) -> Vec<u8> {
    let mut block = generator.uniform(p, k);
    let mut word = Vec::new();
    for _ in 0..times {
        generator.shuffle(&mut block);
        word.extend(&block);
    }
    word
}

/// Words that have a full period by how they are made, half of the length too where it is even, and the same with one letter changed.
#[test]
fn words_of_shuffled_blocks() {
    let mut generator = seeded(180);
    for n in [2, 3, 4, 6, 12, 16, 30, 60, 64, 97, 120, 210, 239, LONGEST] {
        for p in (1..n).filter(|p| n % p == 0) {
            for k in [2, 3, 26] {
                let mut word = blocks(&mut generator, p, n / p, k);
                assert!(assert_full(&word).contains(&p));
                let at = generator.below(n);
                word[at] = if word[at] == b'a' { b'b' } else { b'a' };
                assert_full(&word);
            }
        }
    }
}

#[test]
fn words_with_many_cycles() {
    for n in 0..=LONGEST {
        for word in [alternating(n), fibonacci(n), abba(n)] {
            assert_full(&word);
        }
    }
}

/// After each of a list of calls: adds of shuffled blocks and of bytes that are no letters, take-backs and now and then a clear.
#[test]
fn trackers_after_lists_of_calls() {
    let mut generator = seeded(181);
    let mut with_full_periods = 0;
    for _ in 0..60 {
        let mut tracker = Fields::zero();
        for _ in 0..12 {
            let (p, times, k) = (1 + generator.below(6), 1 + generator.below(4), 2);
            for letter in blocks(&mut generator, p, times, k) {
                assert_eq!(Library.add(&mut tracker, letter).number, 0);
                with_full_periods += usize::from(!assert_held(&tracker).is_empty());
            }
            let refused = Library.add(&mut tracker, not_a_letter(&mut generator));
            assert_eq!(refused, Answer::refused(2, 1));
            for _ in 0..generator.below(12) {
                Library.take_back(&mut tracker);
                assert_held(&tracker);
            }
            if generator.once_in(8) {
                assert_eq!(Library.clear(&mut tracker), Answer::default());
                assert_held(&tracker);
            }
        }
    }
    assert!(with_full_periods >= 500, "{with_full_periods}");
}
