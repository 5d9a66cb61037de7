//! The safe interface: its types say what the numbers say.
use crate::support::{lent, places_enough, seeded, shown, shown_square_free, shown_windows};
use checks::calls::{Answer, Calls};
use checks::library::Library;
use checks::reference::{self, is_one_letter, pairs, periods, squares, Pair};
use luffbutton::{count_full, count_full_scaled, count_plain, count_report, count_runs};
use luffbutton::{count_skipping, count_squares, find_cover, findings, judge, list_full};
use luffbutton::{count_square_free, list_square_free, square_free_words, Alphabet, Length};
use luffbutton::{count_windows, list_windows, runs, Cover, Finding, Head, Period, Refusal};
use luffbutton::{list_full_scaled, list_plain, list_runs, list_skipping, list_squares, report};
use luffbutton::{Run, SquareFreeWord, Tracker, Verdict, BOARD, CLEAR, FIRST_LETTER};
use luffbutton::{LARGEST_ALPHABET, LETTERS, LONGEST, LONGEST_RECORD, LONGEST_SQUARE_FREE};
use luffbutton::{MOST_REPORT, TAKE_BACK};
use std::error::Error;
use std::sync::Mutex;

#[test]
fn verdicts() {
    assert_eq!(judge(b"abaababa", Head(1), Period(2)), Ok(Verdict::Yes));
    let no = Verdict::No {
        block: 2,
        letter: b'a',
    };
    assert_eq!(judge(b"abaababa", Head(0), Period(4)), Ok(no));
    let no = Verdict::No {
        block: 0,
        letter: b'z',
    };
    assert_eq!(judge(b"zya", Head(1), Period(2)), Ok(no));
    assert_eq!(
        judge(b"aa", Head(1), Period(1)),
        Err(Refusal::PairOutOfRange)
    );
    let bad = Refusal::NotALetter { position: 2 };
    assert_eq!(judge(b"aBc", Head(0), Period(1)), Err(bad));
    assert_eq!(
        judge(&[b'a'; 241], Head(0), Period(1)),
        Err(Refusal::TooLong)
    );
}

#[test]
fn covers() {
    assert_eq!(find_cover(b"abba"), Ok(Cover::Length(2)));
    assert_eq!(find_cover(b"aqa"), Ok(Cover::Length(2)));
    assert_eq!(find_cover(b"aaab"), Ok(Cover::Nothing));
    assert_eq!(find_cover(b"?"), Err(Refusal::NotALetter { position: 1 }));
}

/// Every list call answers what the numbers say, and refuses a slice that is too short with the words needed.
#[test]
fn lists() {
    let mut generator = seeded(80);
    for n in 1..=40 {
        let (word, _) = generator.cyclic(n, 3);
        let _shown = shown(&word);
        for places in [places_enough(n), 2] {
            let mut out = vec![0; places];
            let numbers = Library.list_plain(&word, &mut out);
            let typed = list_plain(&word, &mut out).map(|x| (x.written, x.trials));
            assert_eq!(typed, due(numbers, (numbers.written, numbers.trials)));
            let numbers = Library.list_skipping(&word, &mut out);
            let typed = list_skipping(&word, &mut out).map(|x| (x.written, x.trials));
            assert_eq!(typed, due(numbers, (numbers.written, numbers.trials)));
            let numbers = Library.list_full_scaled(&word, &mut out);
            let typed = list_full_scaled(&word, &mut out).map(|x| (x.written, x.s, x.t));
            assert_eq!(typed, due(numbers, (numbers.written, numbers.s, numbers.t)));
            let numbers = Library.list_full(&word, &mut out);
            assert_eq!(list_full(&word, &mut out), due(numbers, numbers.written));
            let numbers = Library.list_squares(&word, &mut out);
            assert_eq!(list_squares(&word, &mut out), due(numbers, numbers.written));
            let numbers = Library.list_runs(&word, &mut out);
            assert_eq!(list_runs(&word, &mut out), due(numbers, numbers.written));
            let numbers = Library.report(&word, &mut out);
            assert_eq!(report(&word, &mut out), due(numbers, numbers.written));
        }
    }
}

/// The accepted numbers, or the refusal of a slice that is too short, or of a report of equal letters.
fn due<T>(answer: Answer, accepted: T) -> Result<T, Refusal> {
    match answer.number {
        0 => Ok(accepted),
        3 => Err(Refusal::SliceTooShort {
            needed: answer.value,
        }),
        10 => Err(Refusal::OneLetter),
        other => panic!("refusal {other}"),
    }
}

/// A count of the safe interface, and the list call beside which it stands.
type Count = fn(&[u8]) -> Result<usize, Refusal>;
type List = fn(&[u8], &mut [u32]) -> Result<usize, Refusal>;

/// Every count, with what its list has written.
const COUNTS: [(&str, Count, List); 7] = [
    ("count_plain", count_plain, |word, out| {
        list_plain(word, out).map(|listed| listed.written)
    }),
    ("count_skipping", count_skipping, |word, out| {
        list_skipping(word, out).map(|listed| listed.written)
    }),
    ("count_full", count_full, list_full),
    ("count_full_scaled", count_full_scaled, |word, out| {
        list_full_scaled(word, out).map(|listed| listed.written)
    }),
    ("count_squares", count_squares, list_squares),
    ("count_runs", count_runs, list_runs),
    ("count_report", count_report, report),
];

/// A count says how many places its list needs: so many are filled, and with one less the list is refused.
#[test]
fn counts() {
    let mut generator = seeded(83);
    for n in (1..=40).chain([LONGEST]) {
        let (word, _) = generator.cyclic(n, 3);
        let _shown = shown(&word);
        for (name, count, list) in COUNTS {
            if name == "count_report" && is_one_letter(&word) {
                let refused = [count(&word), list(&word, &mut [])];
                assert_eq!(refused, [Err(Refusal::OneLetter); 2]);
                continue;
            }
            let needed = count(&word).expect("a word");
            assert_eq!(list(&word, &mut vec![0; needed]), Ok(needed), "{name}");
            if needed > 0 {
                let short = list(&word, &mut vec![0; needed - 1]);
                assert_eq!(short, Err(Refusal::SliceTooShort { needed }), "{name}");
            }
        }
    }
}

/// Each count says the numbers of its own list: of this word there are 16 periods, no full period, six squares and five runs.
#[test]
fn counts_of_abaababa() {
    let due = [16, 16, 0, 0, 6, 10, 23];
    for ((name, count, _), words) in COUNTS.into_iter().zip(due) {
        assert_eq!(count(b"abaababa"), Ok(words), "{name}");
    }
}

/// A count is refused for what its list is refused for.
#[test]
fn refused_counts() {
    for (name, count, list) in COUNTS {
        let bad = Err(Refusal::NotALetter { position: 2 });
        assert_eq!([count(b"aBc"), list(b"aBc", &mut [])], [bad; 2], "{name}");
        let long = [b'a'; LONGEST + 1];
        let refused = [count(&long), list(&long, &mut [])];
        assert_eq!(refused, [Err(Refusal::TooLong); 2], "{name}");
    }
}

/// A report's words say its head, its full period, periods and squares.
#[test]
fn findings_of_a_report() {
    let word = b"abba";
    let (answer, out) = lent(20, |out| Library.report(word, out));
    let mut due = vec![Finding::ReportHead {
        length: 4,
        cover: Cover::Length(2),
    }];
    due.push(Finding::Full {
        period: Period(2),
        blocks: 2,
    });
    let period = |Pair { head, period }: Pair| Finding::Period { head, period };
    due.extend(periods(word).into_iter().map(period));
    let square = |(half, start)| Finding::Square { half, start };
    due.extend(squares(word).into_iter().map(square));
    let found: Vec<Finding> = findings(&out[..answer.written]).collect();
    assert_eq!(found, due);
    let one_by_one = out[..answer.written].iter().map(|&x| Finding::of(x));
    assert!(one_by_one.eq(due.into_iter().map(Some)));
    assert_eq!(Finding::of(0), None);
    assert_eq!(Finding::of(10 << 28), None);
    assert_eq!(findings(&[0, 10 << 28]).next(), None);
}

/// A report's first word, read.
fn report_head(word: &[u8]) -> Option<Finding> {
    let mut out = vec![0; MOST_REPORT];
    assert!(report(word, &mut out).is_ok());
    Finding::of(out[0])
}

/// A report's head has the very cover that is found, of words with a cover and without one.
#[test]
fn covers_of_report_heads() {
    let mut generator = seeded(85);
    let (mut covered, mut uncovered) = (0, 0);
    for n in (1..=60).chain([239, LONGEST]) {
        for k in [2, 3, LETTERS] {
            for word in [generator.uniform(n, k), generator.cyclic(n, k).0] {
                if is_one_letter(&word) {
                    continue;
                }
                let _shown = shown(&word);
                let cover = find_cover(&word).expect("a word");
                let due = Finding::ReportHead { length: n, cover };
                assert_eq!(report_head(&word), Some(due));
                match cover {
                    Cover::Length(_) => covered += 1,
                    Cover::Nothing => uncovered += 1,
                }
            }
        }
    }
    assert!(covered > 100 && uncovered > 100, "{covered}, {uncovered}");
    let (length, cover) = (3, Cover::Nothing);
    let due = Finding::ReportHead { length, cover };
    assert_eq!(report_head(b"abb"), Some(due));
}

/// The words of two runs of abaababa. The first is the one that request C-11 gives: d = 3 and i = 1, then j = 6 and the hands 0 and 2.
const RUNS: [[u32; 2]; 2] = [[1342226433, 1611005954], [1342226435, 1611137536]];

/// What these words say.
fn due_runs() -> [Run; 2] {
    [(1, 6, 0, 2), (3, 8, 2, 0)].map(|(start, end, left, right)| Run {
        period: Period(3),
        start,
        end,
        left,
        right,
    })
}

/// A run is read from its two words. Neither is a finding alone, so that the second is not read by the fields of the other kinds.
#[test]
fn runs_of_two_words() {
    assert_eq!(RUNS.map(Run::of), due_runs().map(Some));
    let [first, second] = RUNS[0];
    for both in [[second, first], [first, first], [second, second]] {
        assert_eq!(Run::of(both), None);
    }
    assert_eq!(Finding::of(first), None);
    assert_eq!(Finding::of(second), None);
    assert_eq!(findings(&RUNS[0]).next(), None);
}

/// The numbers of a run's words do not run into each other where they are large.
#[test]
fn runs_of_large_numbers() {
    let words = [0x5000_0000 + 120 * (1 << 14) + 240, 0x60f0_7776];
    let due = Run {
        period: Period(120),
        start: 240,
        end: 240,
        left: 0x77,
        right: 0x76,
    };
    assert_eq!(Run::of(words), Some(due));
}

/// What is not two words of one run is passed over, wherever it stands.
#[test]
fn runs_among_other_words() {
    let [one, other] = RUNS;
    let square = 2 * (1 << 28) + (1 << 14) + 1;
    let (half, rest) = ([one[1], one[0]], [square, one[0], square, one[1]]);
    let words = [&half[..1], &one, &rest, &other, &half[1..]].concat();
    assert!(runs(&words).eq(due_runs()));
    assert!(runs(&words).rev().eq(due_runs().into_iter().rev()));
    for none in [&half[..], &rest, &one[..1], &one[1..], &[]] {
        assert_eq!(runs(none).next(), None);
    }
}

/// The runs read from a list are those of the second implementation.
#[test]
fn runs_of_a_list() {
    let mut generator = seeded(82);
    let due = |run: reference::Run| Run {
        period: Period(run.d),
        start: run.i,
        end: run.j,
        left: run.left,
        right: run.right,
    };
    for n in (1..=40).chain([LONGEST]) {
        let (word, _) = generator.cyclic(n, 3);
        let _shown = shown(&word);
        let mut out = vec![0; places_enough(n)];
        let written = list_runs(&word, &mut out).expect("places enough");
        let found: Vec<Run> = runs(&out[..written]).collect();
        let due: Vec<Run> = reference::runs(&word).into_iter().map(due).collect();
        assert_eq!(found, due);
    }
    assert_eq!(
        list_runs(b"aBc", &mut []),
        Err(Refusal::NotALetter { position: 2 })
    );
    assert_eq!(
        list_runs(&[b'a'; LONGEST + 1], &mut []),
        Err(Refusal::TooLong)
    );
}

/// The starts read from a list of windows are those of the second implementation, and the count says how many places the list needs.
#[test]
fn windows_of_a_list() {
    let mut generator = seeded(84);
    for n in (0..=40).chain([1000, LONGEST_RECORD]) {
        let record = generator.uniform(n, 2);
        let pattern = generator.uniform(1 + n % 7, 2);
        let _shown = shown_windows(&pattern, &record);
        let needed = count_windows(&pattern, &record).expect("a pattern and a record");
        let mut out = vec![0; needed];
        assert_eq!(list_windows(&pattern, &record, &mut out), Ok(needed));
        let due = reference::windows(&pattern, &record).into_iter();
        assert!(findings(&out).eq(due.map(|start| Finding::Window { start })));
        if needed > 0 {
            let short = list_windows(&pattern, &record, &mut out[1..]);
            assert_eq!(short, Err(Refusal::SliceTooShort { needed }));
        }
    }
}

/// The start is all of a window's word below its kind: the greatest is read as others are, and is not taken for two numbers of 14 bits.
#[test]
fn windows_of_great_starts() {
    for start in [1, 16383, 16384, 16385, 65535, 65536] {
        let word = 7 * (1 << 28) + start as u32;
        assert_eq!(Finding::of(word), Some(Finding::Window { start }));
    }
    let square = 2 * (1 << 28) + (1 << 14) + 1;
    let among = [square, 7 * (1 << 28) + 65536, 10 << 28];
    let due = [
        Finding::Square { half: 1, start: 1 },
        Finding::Window { start: 65536 },
    ];
    assert!(findings(&among).eq(due));
}

/// Each refusal of a pattern and a record, by list and count.
#[test]
fn refused_windows() {
    let (long_pattern, long_record) = ([b'a'; LONGEST + 1], [b'a'; LONGEST_RECORD + 1]);
    let table: [(&[u8], &[u8], Refusal); 5] = [
        (&long_pattern, b"a", Refusal::TooLong),
        (b"aBc", b"?", Refusal::NotALetter { position: 2 }),
        (b"", &long_record, Refusal::PatternEmpty),
        (b"a", &long_record, Refusal::RecordTooLong),
        (b"a", b"aab?", Refusal::NotALetter { position: 4 }),
    ];
    for (pattern, record, due) in table {
        assert_eq!(count_windows(pattern, record), Err(due));
        assert_eq!(list_windows(pattern, record, &mut []), Err(due));
    }
    assert_eq!(list_windows(b"ab", b"a", &mut []), Ok(0));
    let texts = [Refusal::PatternEmpty, Refusal::RecordTooLong].map(|x| x.to_string());
    let due = [
        "the pattern has no letter",
        "the record has more than 65536 bytes",
    ];
    assert_eq!(texts, due);
}

/// The letters read from a list of square-free words are those of the second implementation, and so are those read from all numbers of so
/// many letters, the findings have their numbers, and the count says how many places the list needs.
#[test]
fn square_free_words_of_a_list() {
    for k in 1..=LARGEST_ALPHABET {
        for n in 0..=6 {
            let (alphabet, length) = (Alphabet(k), Length(n));
            let _shown = shown_square_free(alphabet, length);
            let needed = count_square_free(alphabet, length).expect("a length that is taken");
            let mut out = vec![0; needed];
            assert_eq!(list_square_free(alphabet, length, &mut out), Ok(needed));
            let (numbers, letters): (Vec<usize>, Vec<Vec<u8>>) =
                reference::square_free(k, n).into_iter().unzip();
            let all: Vec<u32> = (0..k.pow(n as u32) as u32).map(of_kind_9).collect();
            for words in [&out, &all] {
                let read = square_free_words(words, alphabet, length).map(|word| word.to_vec());
                assert!(read.eq(letters.iter().cloned()));
            }
            let found = numbers
                .into_iter()
                .map(|number| Finding::SquareFree { number });
            assert!(findings(&out).eq(found));
            if needed > 0 {
                let short = list_square_free(alphabet, length, &mut out[1..]);
                assert_eq!(short, Err(Refusal::SliceTooShort { needed }));
            }
        }
    }
}

/// The output word of kind 9 with this number.
fn of_kind_9(number: u32) -> u32 {
    9 * (1 << 28) + number
}

/// The number of these letters among k: a digit for each letter.
fn number_of(letters: &[u8], k: usize) -> u32 {
    let digit = |letter: &u8| u32::from(letter - FIRST_LETTER);
    let digits = letters.iter().map(digit);
    digits.fold(0, |number, digit| number * k as u32 + digit)
}

/// The same number is another word over other letters and of another length. The last row is the last word of the longest list.
#[test]
fn letters_of_a_number() {
    let table: [(u32, usize, usize, &[u8]); 13] = [
        (0, 1, 0, b""),
        (0, 1, 1, b"a"),
        (1, 2, 2, b"ab"),
        (1, 3, 2, b"ab"),
        (1, 4, 2, b"ab"),
        (5, 2, 3, b"bab"),
        (5, 3, 2, b"bc"),
        (5, 3, 3, b"abc"),
        (11, 3, 3, b"bac"),
        (11, 3, 4, b"abac"),
        (11, 4, 2, b"cd"),
        (11, 4, 3, b"acd"),
        (15592685, 4, 12, b"dcdbdcdadcdb"),
    ];
    for (number, k, n, letters) in table {
        assert_eq!(number_of(letters, k), number);
        let word = SquareFreeWord::of(of_kind_9(number), Alphabet(k), Length(n));
        assert_eq!(word.as_deref(), Some(letters), "{number}, {k}, {n}");
    }
    let word = SquareFreeWord::of(of_kind_9(5), Alphabet(2), Length(3));
    assert_eq!(format!("{word:?}"), "Some(SquareFreeWord(\"bab\"))");
}

/// Letters with one Abelian square, of each half length, at the beginning, in between, at the end and as the whole, are none of a list.
#[test]
fn letters_with_a_square() {
    let table: [(usize, &[u8], (usize, usize)); 10] = [
        (1, b"aa", (1, 1)),
        (2, b"aab", (1, 1)),
        (4, b"abb", (1, 2)),
        (2, b"abab", (2, 1)),
        (4, b"cababd", (2, 2)),
        (3, b"abcbac", (3, 1)),
        (4, b"abacabadcacd", (3, 7)),
        (4, b"abcdabdc", (4, 1)),
        (4, b"abacabdabcad", (5, 3)),
        (4, b"abacadabadac", (6, 1)),
    ];
    for (k, letters, square) in table {
        assert_eq!(squares(letters), [square], "{}", letters.escape_ascii());
        let word = of_kind_9(number_of(letters, k));
        let read = SquareFreeWord::of(word, Alphabet(k), Length(letters.len()));
        assert_eq!(read, None);
    }
}

/// A number that is too great for so many letters, an alphabet or a length that no list has, and words of other kinds give no letters. The
/// digits of these numbers have no square: that is not why.
#[test]
fn numbers_without_letters() {
    let none = [
        (of_kind_9(1), 1, 1),
        (of_kind_9(1), 4, 0),
        (of_kind_9(8 + number_of(b"aba", 2)), 2, 3),
        (of_kind_9(9 + number_of(b"ab", 3)), 3, 2),
        (of_kind_9(16777216 + number_of(b"abacabadabac", 4)), 4, 12),
        (of_kind_9(0), 0, 1),
        (of_kind_9(number_of(b"abc", 5)), 5, 3),
        (of_kind_9(1), usize::MAX, 2),
        (of_kind_9(number_of(b"abacabadabaca", 4)), 4, 13),
        (of_kind_9(0), 4, usize::MAX),
        ((8 << 28) + number_of(b"aba", 2), 2, 3),
        ((10 << 28) + number_of(b"aba", 2), 2, 3),
        (number_of(b"aba", 2), 2, 3),
    ];
    for (word, k, n) in none {
        let read = SquareFreeWord::of(word, Alphabet(k), Length(n));
        assert_eq!(read, None, "{word}, {k}, {n}");
    }
}

/// What is no word of a list is passed over, wherever it stands: another kind, too great a number, and letters with a square.
#[test]
fn square_free_words_among_others() {
    let [aba, too_great, aaa, bab] = [2, 10, 0, 5].map(of_kind_9);
    let among = [2, aba, 7 << 28, too_great, aaa, bab];
    let letters = || square_free_words(&among, Alphabet(2), Length(3)).map(|word| word.to_vec());
    assert!(letters().eq([b"aba", b"bab"]));
    assert!(letters().rev().eq([b"bab", b"aba"]));
}

/// A list that is read with another alphabet or another length than its own gives other letters, or none.
#[test]
fn a_list_read_with_other_sizes() {
    let mut out = [0; 2];
    assert_eq!(list_square_free(Alphabet(2), Length(3), &mut out), Ok(2));
    let read = |k, n| square_free_words(&out, Alphabet(k), Length(n)).map(|word| word.to_vec());
    assert!(read(2, 3).eq([b"aba", b"bab"]));
    assert!(read(3, 2).eq([b"ac", b"bc"]));
    assert!(read(3, 3).eq([b"abc"]));
    assert!(read(2, 2).eq([b"ba"]));
    assert_eq!(read(2, 4).next(), None);
}

/// Each refusal of an alphabet and a length, by list and count.
#[test]
fn refused_square_free_words() {
    let (largest, longest) = (LARGEST_ALPHABET, LONGEST_SQUARE_FREE);
    let table = [
        (0, 0, Refusal::SquareFreeAlphabet),
        (0, longest + 1, Refusal::SquareFreeAlphabet),
        (largest + 1, 1, Refusal::SquareFreeAlphabet),
        (usize::MAX, usize::MAX, Refusal::SquareFreeAlphabet),
        (1, longest + 1, Refusal::SquareFreeLength),
        (largest, usize::MAX, Refusal::SquareFreeLength),
    ];
    for (k, n, due) in table {
        let (alphabet, length) = (Alphabet(k), Length(n));
        assert_eq!(count_square_free(alphabet, length), Err(due));
        assert_eq!(list_square_free(alphabet, length, &mut []), Err(due));
    }
    let empty = list_square_free(Alphabet(1), Length(longest), &mut []);
    assert_eq!(empty, Ok(0));
    let texts = [Refusal::SquareFreeAlphabet, Refusal::SquareFreeLength].map(|x| x.to_string());
    let due = [
        "the alphabet has no letter or more than 4",
        "the length is above 12 letters",
    ];
    assert_eq!(texts, due);
}

/// A word of one letter is reported, and one of two or more that are all equal is not.
#[test]
fn refused_reports() {
    let mut out = [0; 2];
    assert_eq!((count_report(b"a"), report(b"a", &mut out)), (Ok(2), Ok(2)));
    let refused = [count_report(b"aa"), report(b"aa", &mut out)];
    assert_eq!(refused, [Err(Refusal::OneLetter); 2]);
    let text = "all letters of the word are equal";
    assert_eq!(Refusal::OneLetter.to_string(), text);
}

#[test]
fn refusals_have_their_numbers_and_values() {
    let table = [
        (Refusal::TooLong, 1, 0),
        (Refusal::NotALetter { position: 9 }, 2, 9),
        (Refusal::SliceTooShort { needed: 7 }, 3, 7),
        (Refusal::TrackerFull, 4, 0),
        (Refusal::TrackerEmpty, 5, 0),
        (Refusal::TrackerDamaged, 6, 0),
        (Refusal::PairOutOfRange, 7, 0),
        (Refusal::PatternEmpty, 8, 0),
        (Refusal::RecordTooLong, 9, 0),
        (Refusal::OneLetter, 10, 0),
        (Refusal::SquareFreeAlphabet, 11, 0),
        (Refusal::SquareFreeLength, 12, 0),
    ];
    for (refusal, number, value) in table {
        assert_eq!((refusal.number(), refusal.value()), (number, value));
    }
}

#[test]
fn a_tracker_through_its_calls() {
    let mut tracker = Tracker::fresh();
    let mut out = vec![0; BOARD];
    assert_eq!(tracker.take_back(), Err(Refusal::TrackerEmpty));
    for &letter in b"abaababa" {
        assert_eq!(tracker.add(letter), Ok(()));
    }
    assert_eq!(tracker.add(b'B'), Err(Refusal::NotALetter { position: 1 }));
    assert_eq!(tracker.letters(), b"abaababa");
    assert_eq!(
        tracker.list(&mut out[..15]),
        Err(Refusal::SliceTooShort { needed: 16 })
    );
    assert_eq!(tracker.list(&mut out), Ok(16));
    assert_eq!(tracker.count(), Ok(16));
    assert_eq!((tracker.live(), tracker.ended()), (16, 4));
    assert_eq!(tracker.take_back(), Ok(()));
    assert_eq!(tracker.letters(), b"abaabab");
    let live = tracker.count().expect("its periods");
    assert_eq!((tracker.live(), tracker.ended()), (live, 16 - live));
    tracker.clear();
    assert!(tracker == Tracker::default() && tracker.letters().is_empty());
    assert_eq!(tracker.count(), Ok(0));
    assert_eq!((tracker.live(), tracker.ended()), (0, 0));
    for _ in 0..LONGEST {
        assert_eq!(tracker.add(b'a'), Ok(()));
    }
    assert_eq!(tracker.add(b'a'), Err(Refusal::TrackerFull));
    assert_eq!(tracker.list(&mut out), Ok(pairs(LONGEST).len()));
    assert_eq!(tracker.count(), Ok(pairs(LONGEST).len()));
    assert_eq!(tracker.letters(), [b'a'; LONGEST]);
}

/// A tracker can be held by a static, is shown by its letters, and its refusals are errors with a text of their own.
#[test]
fn a_tracker_in_a_static() {
    static SHARED: Mutex<Tracker> = Mutex::new(Tracker::fresh());
    let mut tracker = SHARED.lock().expect("no other test has it");
    assert_eq!(tracker.add(b'a'), Ok(()));
    assert_eq!(format!("{tracker:?}"), "Tracker(\"a\")");
    let refused: Box<dyn Error> = Box::from(tracker.add(b'A').unwrap_err());
    assert_eq!(refused.to_string(), "the byte at position 1 is no letter");
}

#[test]
fn a_tracker_by_a_replay() {
    let mut out = [0; 4];
    let (mut replayed, refused, listed) = Tracker::replay(b"-ab!?abb-", &mut out);
    assert_eq!((refused, listed), (2, Ok(1)));
    assert_eq!(replayed.letters(), b"ab");
    let mut tracker = Tracker::fresh();
    for &letter in b"ab" {
        assert_eq!(tracker.add(letter), Ok(()));
    }
    assert!(replayed == tracker && replayed.fields() == tracker.fields());
    assert_eq!(replayed.add(b'b'), Ok(()));
}

/// A replay whose list is refused has made its calls, and says how many of them were refused.
#[test]
fn a_replay_whose_list_is_refused() {
    let mut out = [7; 4];
    let short = Err(Refusal::SliceTooShort { needed: 6 });
    let (tracker, refused, listed) = Tracker::replay(b"aaaa", &mut out);
    assert_eq!((refused, listed), (0, short));
    assert_eq!(tracker.letters(), b"aaaa");
    let calls = [b'b', CLEAR, TAKE_BACK, b'a', b'a', b'?', b'a', b'a'];
    let (other, refused, listed) = Tracker::replay(&calls, &mut out);
    assert_eq!((refused, listed), (2, short));
    assert!(other == tracker);
    assert_eq!(out, [7; 4]);
}

/// A list and a count only read their tracker, so that several may run on one at the same time.
#[test]
fn lists_and_counts_of_one_tracker_at_the_same_time() {
    let letters = seeded(81).cyclic(LONGEST, 3).0;
    let (tracker, _, listed) = Tracker::replay(&letters, &mut vec![0; BOARD]);
    let lists = || {
        for _ in 0..100 {
            assert_eq!(tracker.list(&mut vec![0; BOARD]), listed);
            assert_eq!(tracker.count(), listed);
        }
    };
    std::thread::scope(|scope| {
        for _ in 0..4 {
            scope.spawn(lists);
        }
    });
}
