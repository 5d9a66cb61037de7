//! Anagram windows (request C-13): marked rows, refusals in their order, edges, slices around the number of places needed, the outside
//! vectors, and patterns and records of every kind, on the library and on the second implementation. The count beside the list is also in
//! `counts`.
use crate::records::read_windows;
use crate::support::{assert_lists, damage, filled, lent, marks, not_a_letter, seeded, Shown};
use crate::support::{patterns_for, shown_windows, BOTH};
use checks::calls::{Answer, Calls};
use checks::library::Library;
use checks::reference::{is_letter, windows, Reference};
use luffbutton::{FIRST_LETTER, LETTERS, LONGEST, LONGEST_RECORD, MOST_WINDOWS};

/// The second letter.
const SECOND_LETTER: u8 = FIRST_LETTER + 1;

/// The output words of windows with these starts, as the request writes them.
fn words(starts: &[usize]) -> Vec<u32> {
    let word = |&start: &usize| (7 * (1 << 28) + start) as u32;
    starts.iter().map(word).collect()
}

/// Asserts that the list has these starts, with as many places as they need and with more, that with one place too few it is refused and the
/// slice is as it came, and that the count is theirs.
fn assert_starts(calls: &dyn Calls, pattern: &[u8], record: &[u8], starts: &[usize]) {
    let due = Answer::of_words(starts.len());
    let list = |out: &mut [u32]| calls.list_windows(pattern, record, out);
    assert_lists(list, &words(starts), due, "list_windows");
    assert_eq!(calls.count_windows(pattern, record), due, "count_windows");
}

/// Asserts that list and count give the refusal, with every other number 0, and that slices are as they came.
fn assert_refused(pattern: &[u8], record: &[u8], number: usize, value: usize) {
    let _shown = shown_windows(pattern, record);
    let due = Answer::refused(number, value);
    for calls in BOTH {
        for places in [0, 1, 300] {
            let (answer, out) = lent(places, |out| calls.list_windows(pattern, record, out));
            assert_eq!(answer, due, "list_windows with {places} places");
            assert_eq!(out, marks(places), "list_windows with {places} places");
        }
        let counted = calls.count_windows(pattern, record);
        assert_eq!(counted, due, "count_windows");
    }
}

#[test]
fn marked_rows() {
    let table: [(&[u8], &[u8], &[usize]); 18] = [
        (b"ab", b"abbaab", &[1, 3, 5]),
        (b"ba", b"abbaab", &[1, 3, 5]),
        (b"a", b"", &[]),
        (b"ab", b"", &[]),
        (b"ab", b"a", &[]),
        (b"a", b"a", &[1]),
        (b"a", b"b", &[]),
        (b"a", b"abba", &[1, 4]),
        (b"aa", b"aaaa", &[1, 2, 3]),
        (b"abc", b"cba", &[1]),
        (b"abc", b"abb", &[]),
        (b"abcd", b"cba", &[]),
        (b"aab", b"aaabaa", &[2, 3, 4]),
        (b"aab", b"cccaab", &[4]),
        // Letters that request C-16 adds.
        (b"qa", b"aqa", &[1, 2]),
        (b"aq", b"aqaraq", &[1, 2, 5]),
        (b"ar", b"aqaraq", &[3, 4]),
        (b"yz", b"zyxzzy", &[1, 5]),
    ];
    for (pattern, record, starts) in table {
        let _shown = shown_windows(pattern, record);
        for calls in BOTH {
            assert_starts(calls, pattern, record, starts);
        }
    }
}

/// A pattern of all letters in a record of all letters twice: each window has every letter once.
#[test]
fn a_pattern_of_all_letters() {
    let letters: Vec<u8> = (FIRST_LETTER..).take(LETTERS).collect();
    let record = letters.repeat(2);
    let pattern: Vec<u8> = letters.into_iter().rev().collect();
    let starts: Vec<usize> = (1..=LETTERS + 1).collect();
    for calls in BOTH {
        assert_starts(calls, &pattern, &record, &starts);
        assert_starts(calls, &pattern, &record[..LETTERS - 1], &[]);
    }
}

/// The example's output words, in numbers.
#[test]
fn the_words_of_the_example() {
    for calls in BOTH {
        let (answer, out) = lent(4, |out| calls.list_windows(b"ab", b"abbaab", out));
        assert_eq!(answer, Answer::of_words(3));
        let due = [1879048193, 1879048195, 1879048197];
        assert_eq!(out, filled(&due, 4));
    }
}

#[test]
fn the_file_has_its_records() {
    let records = read_windows();
    assert_eq!(records.len(), 150);
    let starts: usize = records.iter().map(|record| record.starts.len()).sum();
    assert_eq!(starts, 2532);
    let longest = records.iter().map(|record| record.record.len()).max();
    assert_eq!(longest, Some(200));
}

fn vectors_agree(calls: &dyn Calls) {
    for record in read_windows() {
        let _shown = shown_windows(&record.pattern, &record.record);
        assert_starts(calls, &record.pattern, &record.record, &record.starts);
    }
}

#[test]
fn vectors_on_the_library() {
    vectors_agree(&Library);
}

#[test]
fn vectors_on_the_reference() {
    vectors_agree(&Reference);
}

/// A record that is too long, with a byte that is no letter at its beginning or without.
fn too_long(bad: bool) -> Vec<u8> {
    let mut record = vec![FIRST_LETTER; LONGEST_RECORD + 1];
    if bad {
        record[0] = b'?';
    }
    record
}

/// Of each two refusals that apply, the first in the order is given: 1 and 2 of the pattern, 8, 9, 2 of the record.
#[test]
fn refusals_in_their_order() {
    let long_pattern = [FIRST_LETTER; LONGEST + 1];
    let mut long_and_bad = long_pattern;
    long_and_bad[0] = b'?';
    let records: [&[u8]; 5] = [b"", b"ab", b"?b", &too_long(false), &too_long(true)];
    for record in records {
        assert_refused(&long_pattern, record, 1, 0);
        assert_refused(&long_and_bad, record, 1, 0);
        assert_refused(b"aBc", record, 2, 2);
        assert_refused(b"", record, 8, 0);
    }
    for pattern in [&b"a"[..], b"abb", &[SECOND_LETTER; LONGEST]] {
        assert_refused(pattern, &too_long(false), 9, 0);
        assert_refused(pattern, &too_long(true), 9, 0);
        assert_refused(pattern, b"?b", 2, 1);
        assert_refused(pattern, b"ab?", 2, 3);
    }
}

/// A slice that is too short is refused last: with no places at all, each of the others is given before.
#[test]
fn refusal_3_comes_last() {
    for calls in BOTH {
        let list = |pattern: &[u8], record: &[u8]| calls.list_windows(pattern, record, &mut []);
        assert_eq!(list(b"a", b"aa"), Answer::refused(3, 2));
        assert_eq!(list(b"a", b"aa?"), Answer::refused(2, 3));
        assert_eq!(list(b"a", b"bb"), Answer::of_words(0));
        assert_eq!(list(b"", b"aa"), Answer::refused(8, 0));
        assert_eq!(list(b"a", &too_long(false)), Answer::refused(9, 0));
    }
}

/// The position is counted in the pattern or in the record, whichever failed, also behind position 240 of a record.
#[test]
fn a_bad_byte_at_every_place() {
    let mut generator = seeded(130);
    for m in (1..=24).chain([120, 239, LONGEST]) {
        for at in 0..m {
            let mut pattern = generator.uniform(m, LETTERS);
            pattern[at] = not_a_letter(&mut generator);
            assert_refused(&pattern, b"ab", 2, at + 1);
        }
    }
    for n in (1..=24).chain([239, 240, 241, 256, 257, 700]) {
        let pattern = generator.uniform(1 + n % 30, LETTERS);
        for at in 0..n {
            let mut record = generator.uniform(n, LETTERS);
            record[at] = not_a_letter(&mut generator);
            assert_refused(&pattern, &record, 2, at + 1);
        }
    }
    for at in [
        0,
        1,
        16383,
        16384,
        40000,
        LONGEST_RECORD - 2,
        LONGEST_RECORD - 1,
    ] {
        let mut record = generator.uniform(LONGEST_RECORD, LETTERS);
        record[at] = not_a_letter(&mut generator);
        assert_refused(b"ab", &record, 2, at + 1);
    }
}

/// The first of several bad bytes decides.
#[test]
fn several_bad_bytes() {
    let mut generator = seeded(131);
    for _ in 0..300 {
        let (m, n) = (1 + generator.below(LONGEST), 1 + generator.below(2000));
        let (good, mut bad) = (generator.uniform(m, LETTERS), generator.uniform(n, LETTERS));
        damage(&mut bad, &mut generator);
        let first = bad.iter().position(|&byte| !is_letter(byte));
        let first = first.expect("a bad byte") + 1;
        assert_refused(&good, &bad, 2, first);
        bad.truncate(LONGEST);
        if first <= LONGEST {
            assert_refused(&bad, &good, 2, first);
        }
    }
}

/// Each byte is a letter in a pattern and in a record, or in neither.
#[test]
fn every_byte() {
    let mut letters = 0;
    for byte in 0..=u8::MAX {
        let (pattern, record) = ([FIRST_LETTER, byte], [FIRST_LETTER, FIRST_LETTER, byte]);
        if is_letter(byte) {
            let _shown = shown_windows(&pattern, &record);
            letters += 1;
            for calls in BOTH {
                assert_starts(calls, &[byte], &[byte], &[1]);
                let starts: &[usize] = if byte == FIRST_LETTER { &[1, 2] } else { &[2] };
                assert_starts(calls, &pattern, &record, starts);
            }
        } else {
            assert_refused(&pattern, &record, 2, 2);
            assert_refused(b"a", &record, 2, 3);
        }
    }
    assert_eq!(letters, LETTERS);
}

/// A record of 65,536 letters is read and one of a letter more is not, with short patterns and with the longest.
#[test]
fn the_longest_record() {
    let record = vec![FIRST_LETTER; LONGEST_RECORD];
    for m in [1, 2, 239, LONGEST] {
        let pattern = vec![FIRST_LETTER; m];
        let starts: Vec<usize> = (1..=LONGEST_RECORD - m + 1).collect();
        for calls in BOTH {
            assert_starts(calls, &pattern, &record, &starts);
        }
        for more in [1, 2, 1000] {
            let longer = vec![FIRST_LETTER; LONGEST_RECORD + more];
            assert_refused(&pattern, &longer, 9, 0);
        }
    }
}

/// A pattern of 240 letters is taken and one of a letter more is not, whatever the record.
#[test]
fn the_longest_pattern() {
    for n in [0, 1, 239, 240, 241, 242, 1000] {
        let record = vec![FIRST_LETTER; n];
        let starts: Vec<usize> = (1..=n.saturating_sub(LONGEST - 1)).collect();
        let _shown = Shown(format!("{n} letters"));
        for calls in BOTH {
            assert_starts(calls, &[FIRST_LETTER; LONGEST], &record, &starts);
            assert_starts(calls, &[SECOND_LETTER; LONGEST], &record, &[]);
        }
        assert_refused(&[FIRST_LETTER; LONGEST + 1], &record, 1, 0);
        assert_refused(&[FIRST_LETTER; 1000], &record, 1, 0);
    }
}

/// The longest list has 65,536 words: it fits so many places exactly, and with one less it is refused with that value.
#[test]
fn the_longest_list() {
    let record = vec![FIRST_LETTER; LONGEST_RECORD];
    let list = |places: usize| lent(places, |out| Library.list_windows(b"a", &record, out));
    let starts: Vec<usize> = (1..=65536).collect();
    assert_eq!(MOST_WINDOWS, 65536);
    for places in [65536, 65537, 65600] {
        let due = (Answer::of_words(65536), filled(&words(&starts), places));
        assert!(list(places) == due, "{places} places");
    }
    for places in [0, 1, 32768, 65534, 65535] {
        let due = (Answer::refused(3, 65536), marks(places));
        assert!(list(places) == due, "{places} places");
    }
    let counted = Library.count_windows(b"a", &record);
    assert_eq!(counted, Answer::of_words(65536));
}

/// A record is no word: one above 240 letters is not refused with 1.
#[test]
fn records_longer_than_a_word() {
    let mut generator = seeded(132);
    for n in LONGEST + 1..=1000 {
        let record = generator.uniform(n, 2);
        for pattern in [&b"ab"[..], &record[n - LONGEST..]] {
            let _shown = shown_windows(pattern, &record);
            let due = Answer::of_words(windows(pattern, &record).len());
            assert!(due.written > 0);
            assert_eq!(Library.count_windows(pattern, &record), due);
            let answer = lent(n, |out| Library.list_windows(pattern, &record, out)).0;
            assert_eq!(answer, due);
        }
    }
}

/// A pattern as long as the record has one window or none; a longer one has none.
#[test]
fn patterns_as_long_as_the_record() {
    let mut generator = seeded(133);
    for n in (1..=40).chain([120, 238, 239, LONGEST]) {
        for k in [1, 2, 3, LETTERS] {
            let record = generator.uniform(n, k);
            let mut pattern = record.clone();
            generator.shuffle(&mut pattern);
            let _shown = shown_windows(&pattern, &record);
            for calls in BOTH {
                assert_starts(calls, &pattern, &record, &[1]);
                assert_starts(calls, &pattern, &record[1..], &[]);
                assert_starts(calls, &pattern, &record[..n - 1], &[]);
            }
            // Another letter for one of them.
            let at = generator.below(n);
            let next = (usize::from(pattern[at] - FIRST_LETTER) + 1) % LETTERS;
            pattern[at] = FIRST_LETTER + next as u8;
            for calls in BOTH {
                assert_starts(calls, &pattern, &record, &[]);
            }
        }
    }
}

/// One window at each place of a record that has no other: the first, the last, and starts that 14 bits or 16 bits do not hold.
#[test]
fn one_window_alone() {
    let mut generator = seeded(134);
    for (m, n) in [(1, 65536), (2, 65536), (7, 65536), (240, 65536), (3, 40)] {
        let last = n - m + 1;
        let some = 1 + generator.below(last);
        for start in [
            1,
            2,
            255,
            256,
            16383,
            16384,
            16385,
            32768,
            some,
            last - 1,
            last,
        ] {
            if start > last {
                continue;
            }
            let mut record = vec![SECOND_LETTER; n];
            let pattern = vec![FIRST_LETTER; m];
            record[start - 1..start - 1 + m].fill(FIRST_LETTER);
            let _shown = Shown(format!("m {m}, n {n}, start {start}"));
            for calls in BOTH {
                assert_starts(calls, &pattern, &record, &[start]);
            }
        }
    }
}

/// The windows by the second implementation, and how the library lists them: with as many places as there are windows, with as many as the
/// record has letters, and around both. Where the places are too few the slice is as it came. Returns how many windows there are.
fn compare(pattern: &[u8], record: &[u8]) -> usize {
    let _shown = shown_windows(pattern, record);
    let n = record.len();
    let (due, out_due) = lent(n, |out| Reference.list_windows(pattern, record, out));
    assert_eq!(due.number, 0);
    assert_eq!(Reference.count_windows(pattern, record), due);
    assert_eq!(Library.count_windows(pattern, record), due);
    let needed = due.written;
    for places in [0, 1, needed / 2, needed - needed.min(1), n - n.min(1)] {
        let short = (Answer::refused(3, needed), marks(places));
        let answered = lent(places, |out| Library.list_windows(pattern, record, out));
        if places < needed {
            assert_eq!(answered, short, "{places} places");
        } else {
            let full = (due, filled(&out_due[..needed], places));
            assert_eq!(answered, full, "{places} places");
        }
    }
    for places in [needed, needed + 1, n, n + 1, n + 7] {
        let full = (due, filled(&out_due[..needed], places));
        let answered = lent(places, |out| Library.list_windows(pattern, record, out));
        assert_eq!(answered, full, "{places} places");
    }
    needed
}

/// Every pattern and every record of a few letters.
#[test]
fn all_short_patterns_and_records() {
    let all = |n: usize, k: usize| {
        let letter = move |number: usize, place| number / k.pow(place as u32) % k;
        let word =
            move |number| (0..n).map(move |place| FIRST_LETTER + letter(number, place) as u8);
        (0..k.pow(n as u32)).map(move |number| word(number).collect::<Vec<u8>>())
    };
    let (mut tried, mut found) = (0, 0);
    for (k, longest_pattern, longest_record) in [(2, 4, 8), (3, 3, 5)] {
        for n in 0..=longest_record {
            for record in all(n, k) {
                for m in 1..=longest_pattern {
                    for pattern in all(m, k) {
                        found += compare(&pattern, &record);
                        tried += 1;
                    }
                }
            }
        }
    }
    assert_eq!(tried, 30 * 511 + 39 * 364);
    assert!(found > tried);
}

/// Slices of every length from 0 to three more than needed, and so on both sides of the record's length.
#[test]
fn slices_of_every_length() {
    let mut generator = seeded(135);
    for n in (0..=30).chain([100, 241]) {
        for k in [1, 2, 3] {
            let record = generator.uniform(n, k);
            for pattern in patterns_for(&record, k, &mut generator) {
                let _shown = shown_windows(&pattern, &record);
                let needed = windows(&pattern, &record).len();
                for places in 0..=n.max(needed) + 3 {
                    let list = |calls: &dyn Calls| {
                        lent(places, |out| calls.list_windows(&pattern, &record, out))
                    };
                    let answered = list(&Library);
                    assert_eq!(answered, list(&Reference), "{places} places");
                    let short = answered.0.number == 3;
                    assert_eq!(short, places < needed, "{places} places");
                }
            }
        }
    }
}

/// Records of every length to 60, and some longer ones, over some of the letters and over all: patterns cut out of the record, the same
/// shuffled, with a letter changed, and such as have nothing to do with it.
#[test]
fn random_patterns_and_records() {
    let mut generator = seeded(136);
    let mut found = 0;
    for n in (0..=60).chain([120, 239, 240, 241, 255, 256, 257, 500, 1000, 1024]) {
        for k in [1, 2, 3, 4, LETTERS] {
            for _ in 0..4 {
                let record = generator.uniform(n, k);
                for pattern in patterns_for(&record, k, &mut generator) {
                    found += compare(&pattern, &record);
                }
            }
        }
    }
    assert!(found > 50_000, "{found}");
}

#[test]
fn long_records() {
    let mut generator = seeded(137);
    for n in [
        16383,
        16384,
        16385,
        40000,
        LONGEST_RECORD - 1,
        LONGEST_RECORD,
    ] {
        for k in [2, 4, LETTERS] {
            let record = generator.uniform(n, k);
            let m = generator.pick(&[1, 8, 60, 239, LONGEST]);
            let at = generator.pick(&[0, n / 2, n - m]);
            assert!(compare(&record[at..at + m], &record) > 0);
        }
    }
}

/// Around 2,048 windows: the library keeps the words of so many while it counts, and goes through a record with more of them twice.
#[test]
fn around_the_words_kept() {
    for needed in 2046..=2051 {
        let mut record = vec![FIRST_LETTER; needed];
        record.extend([FIRST_LETTER + 1; 40]);
        assert_eq!(compare(b"a", &record), needed);
    }
}

/// Records in which the windows stand in groups: blocks of the pattern's letters shuffled, and letters between.
#[test]
fn records_made_of_shuffled_patterns() {
    let mut generator = seeded(138);
    for m in (1..=12).chain([60, 239, LONGEST]) {
        for k in [1, 2, 3, 4, LETTERS] {
            let pattern = generator.uniform(m, k);
            let (mut record, mut starts) = (Vec::new(), Vec::new());
            while record.len() < 5 * m + 20 {
                let mut block = pattern.clone();
                generator.shuffle(&mut block);
                starts.push(record.len() + 1);
                record.extend(block);
                let between = generator.below(3);
                record.extend(generator.uniform(between, k));
            }
            let _shown = shown_windows(&pattern, &record);
            let listed = windows(&pattern, &record);
            assert!(starts.iter().all(|start| listed.contains(start)));
            assert_eq!(compare(&pattern, &record), listed.len());
        }
    }
}

/// Pattern and record with bytes that are no letters, or too long, or empty, or none of it, by chance: the numbers and the slice are the
/// second implementation's.
#[test]
fn damaged_patterns_and_records() {
    let mut generator = seeded(139);
    let mut numbers = [0; 10];
    for _ in 0..3000 {
        let m = generator.pick(&[0, 1, 2, 7, 30, 239, LONGEST, LONGEST + 1, 300]);
        let n = generator.pick(&[0, 1, 2, 6, 7, 8, 100, 240, 241, 1000]);
        let (mut pattern, mut record) = (generator.uniform(m, 2), generator.uniform(n, 2));
        if generator.once_in(4) {
            damage(&mut pattern, &mut generator);
        }
        if generator.once_in(3) {
            damage(&mut record, &mut generator);
        }
        if generator.once_in(30) {
            record.resize(LONGEST_RECORD + generator.below(3), FIRST_LETTER);
        }
        let _shown = shown_windows(&pattern, &record);
        let places = generator.pick(&[0, 1, 2, 10, 100, 1000]);
        let list =
            |calls: &dyn Calls| lent(places, |out| calls.list_windows(&pattern, &record, out));
        let (answer, out) = list(&Library);
        assert_eq!((answer, out), list(&Reference), "{places} places");
        let counted = Library.count_windows(&pattern, &record);
        assert_eq!(counted, Reference.count_windows(&pattern, &record));
        numbers[answer.number] += 1;
    }
    for number in [0, 1, 2, 3, 8, 9] {
        assert!(numbers[number] > 10, "{number}: {numbers:?}");
    }
}
