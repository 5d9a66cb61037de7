//! Damaged inputs and slices of every length: what is refused, with which numbers, and that a refusal changes nothing. A long word's
//! last place, slices around the needed length and the guards behind them are where a call could read or write too far.
use crate::support::{compare_list, lent, marks, places_enough, seeded, shown};
use crate::support::{COUNT_CALLS, LIST_CALLS};
use checks::calls::{Answer, Calls};
use checks::generator::{fibonacci, Generator};
use checks::library::Library;
use checks::reference::{in_range, is_letter, Pair, Reference};
use luffbutton::{Head, Period, FIRST_LETTER, LETTERS, LONGEST};

/// Asserts that every call on the word gives the refusal, with every other number 0, and leaves slices as they came.
fn assert_refused(word: &[u8], due: Answer) {
    let _shown = shown(word);
    for (name, call) in LIST_CALLS {
        for places in [0, 1, 300] {
            let (answer, out) = lent(places, |out| call(&Library, word, out));
            assert_eq!(answer, due, "{name}");
            assert_eq!(out, marks(places), "{name}: the slice");
            assert_eq!(
                call(&Reference, word, &mut marks(places)),
                due,
                "{name} of the reference"
            );
        }
    }
    for (name, count) in COUNT_CALLS {
        assert_eq!(count(&Library, word), due, "{name}");
        assert_eq!(count(&Reference, word), due, "{name} of the reference");
    }
    assert_eq!(Library.find_cover(word), due, "find_cover");
    assert_eq!(
        Reference.find_cover(word),
        due,
        "find_cover of the reference"
    );
    for (h, p) in [(0, 1), (0, 0), (5, 3), (usize::MAX, usize::MAX)] {
        let (head, period) = (Head(h), Period(p));
        assert_eq!(Library.judge(word, head, period), due, "judge ({h}, {p})");
        assert_eq!(
            Reference.judge(word, head, period),
            due,
            "judge ({h}, {p}) of the reference"
        );
    }
}

#[test]
fn words_too_long() {
    let mut generator = seeded(20);
    for n in (LONGEST + 1..LONGEST + 40).chain([255, 256, 257, 480, 1000, 65536, 70000]) {
        assert_refused(&generator.uniform(n, LETTERS), Answer::refused(1, 0));
        assert_refused(&vec![0; n], Answer::refused(1, 0));
    }
}

#[test]
fn a_bad_byte_at_every_place() {
    let mut generator = seeded(21);
    for n in (1..=24).chain([60, 239, 240]) {
        for at in 0..n {
            let mut word = generator.uniform(n, LETTERS);
            word[at] = bad_byte(&mut generator);
            assert_refused(&word, Answer::refused(2, at + 1));
        }
    }
}

#[test]
fn every_byte_that_is_no_letter() {
    let bad: Vec<u8> = (0..=u8::MAX).filter(|&byte| !is_letter(byte)).collect();
    assert_eq!(bad.len(), 256 - LETTERS);
    for byte in bad {
        assert_refused(&[byte], Answer::refused(2, 1));
        assert_refused(
            &[FIRST_LETTER, FIRST_LETTER, byte, FIRST_LETTER],
            Answer::refused(2, 3),
        );
    }
}

/// The first of several bad bytes decides, and a word that is too long is refused for that.
#[test]
fn several_bad_bytes() {
    let mut generator = seeded(22);
    for _ in 0..300 {
        let n = 2 + generator.below(LONGEST - 1);
        let mut word = generator.uniform(n, LETTERS);
        for _ in 0..1 + generator.below(4) {
            let at = generator.below(n);
            word[at] = bad_byte(&mut generator);
        }
        let first = word.iter().position(|&byte| !is_letter(byte));
        assert_refused(&word, Answer::refused(2, first.expect("a bad byte") + 1));
        word.resize(LONGEST + 1, 0);
        assert_refused(&word, Answer::refused(1, 0));
    }
}

fn bad_byte(generator: &mut Generator) -> u8 {
    let last = FIRST_LETTER + (LETTERS - 1) as u8;
    loop {
        let any = generator.byte();
        let byte = generator.pick(&[any, 0, b' ', b'\n', b'A', FIRST_LETTER - 1, last + 1, 255]);
        if !is_letter(byte) {
            return byte;
        }
    }
}

/// The judge on all pairs around the range, and on numbers whose sum does not fit.
#[test]
fn pairs_out_of_range() {
    let mut generator = seeded(23);
    let huge = [
        usize::MAX,
        usize::MAX - 1,
        usize::MAX / 2,
        usize::MAX / 2 + 1,
        1 << 32,
        1 << 16,
        256,
    ];
    for n in (0..=14).chain([239, 240]) {
        let word = generator.uniform(n, 2);
        let _shown = shown(&word);
        let near = (0..=n.min(16) + 2).chain(n.saturating_sub(2)..=n + 2);
        let numbers: Vec<usize> = near.chain(huge).collect();
        for h in numbers.iter().copied().map(Head) {
            for p in numbers.iter().copied().map(Period) {
                compare_judge(&word, h, p);
            }
        }
    }
}

fn compare_judge(word: &[u8], head: Head, period: Period) {
    let answer = Library.judge(word, head, period);
    assert_eq!(
        answer,
        Reference.judge(word, head, period),
        "{head:?} {period:?}"
    );
    let outside = !in_range(word.len(), Pair { head, period });
    assert_eq!(
        answer == Answer::refused(7, 0),
        outside,
        "{head:?} {period:?}"
    );
}

/// Slices of every length from 0 to three more than needed.
#[test]
fn slices_of_every_length() {
    let mut generator = seeded(24);
    let mut words = vec![
        Vec::new(),
        b"abaababa".to_vec(),
        fibonacci(30),
        vec![FIRST_LETTER; 20],
    ];
    for n in 1..=24 {
        words.push(generator.cyclic(n, 3).0);
        words.push(generator.near_miss(n, 2));
    }
    for word in words {
        let _shown = shown(&word);
        for (name, call) in LIST_CALLS {
            let listed = compare_list(name, call, &word, places_enough(word.len()));
            let needed = listed.written;
            for places in 0..=needed + 3 {
                let answer = compare_list(name, call, &word, places);
                let due = if places < needed {
                    (3, needed, 0)
                } else {
                    (listed.number, 0, needed)
                };
                assert_eq!(
                    (answer.number, answer.value, answer.written),
                    due,
                    "{name}, {places} places"
                );
            }
        }
    }
}

/// Slices around the needed length for the lists of 240 equal letters, which are the longest but for runs. Of such a word there is no report.
#[test]
fn slices_for_the_longest_lists() {
    let word = [FIRST_LETTER; LONGEST];
    let _shown = shown(&word);
    // Of runs, by length d of a block, as many as starts up to d from which two blocks fit: 3,240 up to d = 80, and 1,600 above.
    let runs = 2 * (3240 + 1600);
    let needed = [14520, 14520, 19, 19, 14400, runs];
    for ((name, count), needed) in COUNT_CALLS.into_iter().zip(needed) {
        assert_eq!(count(&Library, &word), Answer::of_words(needed), "{name}");
    }
    for ((name, call), needed) in LIST_CALLS.into_iter().zip(needed) {
        for places in [0, 1, needed - 1] {
            let (answer, out) = lent(places, |out| call(&Library, &word, out));
            assert_eq!(
                answer,
                Answer::refused(3, needed),
                "{name}, {places} places"
            );
            assert_eq!(out, marks(places), "{name}, {places} places");
        }
        for places in [needed, needed + 1, needed + 100] {
            let answer = compare_list(name, call, &word, places);
            assert_eq!(
                (answer.number, answer.written),
                (0, needed),
                "{name}, {places} places"
            );
        }
    }
}
