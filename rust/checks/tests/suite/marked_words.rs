//! Document 01's marked words and edges, with the answers as it gives them, for covers as request C-14 does and for full periods as C-18, on
//! the library and on the second implementation.
use crate::support::{filled, lent, marks, shown, tracked, BOTH, LIST_CALLS};
use checks::calls::{Answer, Calls};
use checks::reference::{cover_lengths, pairs, Pair};
use luffbutton::{Fields, Head, Period, FIRST_LETTER, LETTERS, LONGEST};

/// Document 01's P8.
const P8: &[u8] = b"abaababa";

/// The periods of P8, head first.
const P8_PERIODS: [(u32, u32); 16] = [
    (1, 2),
    (0, 3),
    (2, 3),
    (1, 4),
    (2, 4),
    (3, 4),
    (0, 5),
    (1, 5),
    (2, 5),
    (3, 5),
    (0, 6),
    (1, 6),
    (2, 6),
    (0, 7),
    (1, 7),
    (0, 8),
];

/// The numbers of a list call's words, lower and upper, as (h, p), (start, half) or (n / p, p).
fn listed(call: impl FnOnce(&mut [u32]) -> Answer) -> (Answer, Vec<(u32, u32)>) {
    let (answer, out) = lent(100, call);
    let numbers = |&word: &u32| (word & 0x3fff, word >> 14 & 0x3fff);
    let written = out[..answer.written].iter().map(numbers).collect();
    (answer, written)
}

fn periods(calls: &dyn Calls, word: &[u8]) -> Vec<(u32, u32)> {
    let (_, plain) = listed(|out| calls.list_plain(word, out));
    let (_, skipping) = listed(|out| calls.list_skipping(word, out));
    assert_eq!(plain, skipping);
    plain
}

/// The full periods and s, T, by both paths.
fn full(calls: &dyn Calls, word: &[u8]) -> (Vec<u32>, usize, usize) {
    let (_, plain) = listed(|out| calls.list_full(word, out));
    let (answer, scaled) = listed(|out| calls.list_full_scaled(word, out));
    assert_eq!(plain, scaled);
    (
        plain.into_iter().map(|(_, p)| p).collect(),
        answer.s,
        answer.t,
    )
}

/// The entry of a pair.
fn entry(tracker: &Fields, h: usize, p: usize) -> u8 {
    let (head, period) = (Head(h), Period(p));
    let place = pairs(LONGEST)
        .iter()
        .position(|&pair| pair == Pair { head, period });
    tracker.board[place.expect("a pair in range")]
}

#[test]
fn p1_to_p4_and_p7() {
    for calls in BOTH {
        assert_eq!(periods(calls, b""), []);
        assert_eq!(full(calls, b""), (vec![], 0, 0));
        assert_eq!(periods(calls, b"a"), [(0, 1)]);
        assert_eq!(periods(calls, b"aa"), [(0, 1), (0, 2)]);
        assert_eq!(full(calls, b"aa").0, [1]);
        assert_eq!(periods(calls, b"ab"), [(0, 2)]);
        assert_eq!(calls.find_cover(b"ab"), Answer::default());
        assert_eq!(calls.find_cover(b"aaab"), Answer::default());
    }
}

/// The answer of the search for a cover where it has this length.
fn covered(length: usize) -> Answer {
    Answer {
        yes: 1,
        cover: length,
        ..Answer::default()
    }
}

#[test]
fn p5_and_p6() {
    for calls in BOTH {
        assert_eq!(periods(calls, b"abba"), [(0, 2), (0, 3), (1, 3), (0, 4)]);
        assert_eq!(
            listed(|out| calls.list_squares(b"abba", out)).1,
            [(2, 1), (1, 2)]
        );
        assert_eq!(calls.find_cover(b"abba"), covered(2));
        assert_eq!(full(calls, b"abba"), (vec![2], 2, 1));
        assert_eq!(full(calls, b"aabb"), (vec![], 2, 2));
    }
    assert_eq!(cover_lengths(b"abba"), [2, 3]);
}

/// The smallest cover length of this word is neither half of its letters nor the greatest of its cover lengths.
#[test]
fn the_cover_of_abbaba() {
    for calls in BOTH {
        assert_eq!(calls.find_cover(b"abbaba"), covered(4));
    }
    assert_eq!(cover_lengths(b"abbaba"), [4, 5]);
}

#[test]
fn p8_periods_and_trials() {
    for calls in BOTH {
        assert_eq!(periods(calls, P8), P8_PERIODS);
        assert_eq!(listed(|out| calls.list_plain(P8, out)).0.trials, 20);
        assert_eq!(listed(|out| calls.list_skipping(P8, out)).0.trials, 19);
    }
}

#[test]
fn p9_ended_lengths() {
    for calls in BOTH {
        let tracker = tracked(calls, P8);
        let ended = [(0, 1, 2), (0, 2, 4), (0, 4, 7), (1, 3, 7)];
        for (h, p, m) in ended {
            assert_eq!(entry(&tracker, h, p), m, "({h}, {p})");
        }
        assert_eq!(tracker.board.iter().filter(|&&entry| entry != 0).count(), 4);
        assert_eq!((tracker.live, tracker.ended), (16, 4));
    }
}

#[test]
fn p10_judge() {
    for calls in BOTH {
        let due = Answer {
            block: 2,
            letter: usize::from(b'a'),
            ..Answer::default()
        };
        assert_eq!(calls.judge(P8, Head(0), Period(4)), due);
    }
}

#[test]
fn p11_take_back() {
    for calls in BOTH {
        let mut tracker = tracked(calls, b"abb");
        assert_eq!(entry(&tracker, 1, 2), 3);
        assert_eq!(calls.take_back(&mut tracker), Answer::default());
        assert_eq!(entry(&tracker, 1, 2), 0);
        assert_eq!(listed(|out| calls.list(&tracker, out)).1, [(0, 2)]);
    }
}

/// A word without a cover: 0 stands in the head.
#[test]
fn the_report_of_abb() {
    let due = [2147532800, 268468224, 268484608, 536887298];
    for calls in BOTH {
        let (answer, out) = lent(6, |out| calls.report(b"abb", out));
        assert_eq!((answer.number, answer.written), (0, 4));
        assert_eq!(out, filled(&due, 6));
    }
}

/// A word with a cover: its smallest cover length, 2, stands in the head.
#[test]
fn the_report_of_abba() {
    let period = |(h, p): (u32, u32)| (1 << 28) + p * (1 << 14) + h;
    let mut due = vec![2147549186, 805339138];
    due.extend([(0, 2), (0, 3), (1, 3), (0, 4)].map(period));
    due.extend([536887298, 536903681]);
    for calls in BOTH {
        let (answer, out) = lent(10, |out| calls.report(b"abba", out));
        assert_eq!(answer, Answer::of_words(8));
        assert_eq!(out, filled(&due, 10));
    }
}

#[test]
fn the_examples_of_refusals() {
    for calls in BOTH {
        assert_eq!(calls.find_cover(&[b'a'; 241]), Answer::refused(1, 0));
        assert_eq!(calls.find_cover(b"aBc"), Answer::refused(2, 2));
        assert_eq!(
            lent(1, |out| calls.list_plain(b"aa", out)),
            (Answer::refused(3, 2), marks(1))
        );
        let mut full = tracked(calls, &[b'a'; LONGEST]);
        assert_eq!(calls.add(&mut full, b'a'), Answer::refused(4, 0));
        assert_eq!(calls.take_back(&mut Fields::zero()), Answer::refused(5, 0));
        full.length = 241;
        assert_eq!(calls.take_back(&mut full), Answer::refused(6, 0));
        assert_eq!(
            calls.judge(b"aa", Head(1), Period(1)),
            Answer::refused(7, 0)
        );
    }
}

#[test]
fn lengths_240_and_241() {
    let mut word = [b'b'; 241];
    word[0] = b'a';
    for calls in BOTH {
        for (name, call) in LIST_CALLS {
            let passes = lent(30000, |out| call(calls, &word[..240], out)).0;
            assert_eq!(passes.number, 0, "{name}");
            let fails = lent(30000, |out| call(calls, &word, out)).0;
            assert_eq!(fails, Answer::refused(1, 0), "{name}");
        }
    }
}

#[test]
fn bytes_at_the_edges_of_the_alphabet() {
    let last = FIRST_LETTER + (LETTERS - 1) as u8;
    for calls in BOTH {
        for byte in [FIRST_LETTER, last] {
            assert_eq!(periods(calls, &[byte]), [(0, 1)]);
            assert_eq!(calls.add(&mut Fields::zero(), byte), Answer::default());
        }
        for byte in [FIRST_LETTER - 1, last + 1] {
            assert_eq!(calls.find_cover(&[byte]), Answer::refused(2, 1));
            assert_eq!(calls.add(&mut Fields::zero(), byte), Answer::refused(2, 1));
        }
    }
}

#[test]
fn p8_fits_16_words_and_not_15() {
    let _shown = shown(P8);
    for calls in BOTH {
        assert_eq!(lent(16, |out| calls.list_plain(P8, out)).0.written, 16);
        assert_eq!(
            lent(15, |out| calls.list_plain(P8, out)),
            (Answer::refused(3, 16), marks(15))
        );
        let tracker = tracked(calls, P8);
        assert_eq!(lent(16, |out| calls.list(&tracker, out)).0.written, 16);
        let short = lent(15, |out| calls.list(&tracker, out));
        assert_eq!(short, (Answer::refused(3, 16), marks(15)));
    }
}
