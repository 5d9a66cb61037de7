//! What the tests share: slices with guard values, the list calls and their counts by name, comparisons of two implementations.
use crate::records::Call;
use checks::calls::{Answer, Calls};
use checks::generator::Generator;
use checks::library::Library;
use checks::reference::{is_letter, pairs, Reference};
use luffbutton::{Alphabet, Fields, Length, BOARD, FIRST_LETTER, LETTERS, LONGEST};
use luffbutton::{MOST_FULL, MOST_REPORT};

/// The library and the second implementation.
pub const BOTH: [&dyn Calls; 2] = [&Library, &Reference];

/// The seed of every generator here; each test adds a number of its own.
const SEED: u64 = 20_250_117;

/// A generator for the test of this number. Its seed is printed where the test fails.
pub fn seeded(number: u64) -> Generator {
    println!("seed {}", SEED + number);
    Generator::new(SEED + number)
}

/// Prints what is being tried where a test fails, also where it fails by a panic inside a call.
pub struct Shown(pub String);

impl Drop for Shown {
    fn drop(&mut self) {
        if std::thread::panicking() {
            println!("{}", self.0);
        }
    }
}

/// To be held while a word is tried.
pub fn shown(word: &[u8]) -> Shown {
    Shown(format!(
        "word of {} letters: {}",
        word.len(),
        word.escape_ascii()
    ))
}

/// To be held while a pattern is looked for in a record. Of a long record the first letters are shown.
pub fn shown_windows(pattern: &[u8], record: &[u8]) -> Shown {
    let letters = &record[..record.len().min(1000)];
    Shown(format!(
        "pattern of {} letters: {}\nrecord of {} letters: {}",
        pattern.len(),
        pattern.escape_ascii(),
        record.len(),
        letters.escape_ascii()
    ))
}

/// To be held while square-free words of an alphabet and a length are listed or counted.
pub fn shown_square_free(alphabet: Alphabet, length: Length) -> Shown {
    Shown(format!("{alphabet:?}, {length:?}"))
}

/// A list call on a word.
pub type ListCall = fn(&dyn Calls, &[u8], &mut [u32]) -> Answer;

/// Every list call on a word, by name.
pub const LIST_CALLS: [(&str, ListCall); 7] = [
    ("list_plain", |calls, word, out| calls.list_plain(word, out)),
    ("list_skipping", |calls, word, out| {
        calls.list_skipping(word, out)
    }),
    ("list_full", |calls, word, out| calls.list_full(word, out)),
    ("list_full_scaled", |calls, word, out| {
        calls.list_full_scaled(word, out)
    }),
    ("list_squares", |calls, word, out| {
        calls.list_squares(word, out)
    }),
    ("list_runs", |calls, word, out| calls.list_runs(word, out)),
    ("report", |calls, word, out| calls.report(word, out)),
];

/// A count of the words that a list call writes of a word.
pub type CountCall = fn(&dyn Calls, &[u8]) -> Answer;

/// The count beside each of the list calls, in their order, by name.
pub const COUNT_CALLS: [(&str, CountCall); 7] = [
    ("count_plain", |calls, word| calls.count_plain(word)),
    ("count_skipping", |calls, word| calls.count_skipping(word)),
    ("count_full", |calls, word| calls.count_full(word)),
    ("count_full_scaled", |calls, word| {
        calls.count_full_scaled(word)
    }),
    ("count_squares", |calls, word| calls.count_squares(word)),
    ("count_runs", |calls, word| calls.count_runs(word)),
    ("count_report", |calls, word| calls.count_report(word)),
];

/// Places behind a lent slice that no call may write to.
const GUARDS: usize = 8;

/// As many places as no list of a word of n letters exceeds: a report's head, the full periods, all pairs in range and all candidates of
/// squares. A list of runs has two words for each of these at most, of which there are no more than pairs.
pub fn places_enough(n: usize) -> usize {
    1 + MOST_FULL + pairs_in_range(n) + n * n / 4
}

fn pairs_in_range(n: usize) -> usize {
    (n + 1) / 2 * ((n + 2) / 2)
}

/// A random byte that is no letter.
pub fn not_a_letter(generator: &mut Generator) -> u8 {
    loop {
        let byte = generator.byte();
        if !is_letter(byte) {
            return byte;
        }
    }
}

/// Puts bytes that are no letters at one to four places, where there is a place.
pub fn damage(bytes: &mut [u8], generator: &mut Generator) {
    if bytes.is_empty() {
        return;
    }
    for _ in 0..1 + generator.below(4) {
        let at = generator.below(bytes.len());
        bytes[at] = not_a_letter(generator);
    }
}

/// One word of each kind of the generator's.
pub fn words_of_each_kind(generator: &mut Generator, n: usize, k: usize) -> [Vec<u8>; 3] {
    let (uniform, (cyclic, _)) = (generator.uniform(n, k), generator.cyclic(n, k));
    [uniform, cyclic, generator.near_miss(n, k)]
}

/// Patterns for a record over the first k letters: one that has nothing to do with it; and, where it has letters, a part of it, the same
/// shuffled, and that with one letter changed.
pub fn patterns_for(record: &[u8], k: usize, generator: &mut Generator) -> Vec<Vec<u8>> {
    let n = record.len();
    let m = 1 + generator.below(LONGEST.min(n + 2));
    let mut patterns = vec![generator.uniform(m, k)];
    if n > 0 {
        let short = generator.once_in(2);
        let m = 1 + generator.below(n.min(if short { 8 } else { LONGEST }));
        let from = generator.below(n - m + 1);
        let part = record[from..from + m].to_vec();
        let mut shuffled = part.clone();
        generator.shuffle(&mut shuffled);
        let mut changed = shuffled.clone();
        let letter = &mut changed[generator.below(m)];
        let next = (usize::from(*letter - FIRST_LETTER) + 1) % k.max(2);
        *letter = FIRST_LETTER + next as u8;
        patterns.extend([part, shuffled, changed]);
    }
    patterns
}

/// So many places, each with a value that is no output word and differs from its neighbours'.
pub fn marks(places: usize) -> Vec<u32> {
    (0..places as u32).map(|i| 0xf000_0000 + i).collect()
}

/// Runs a list call on a slice of so many places, all marked, with guards behind. Returns the answer and the slice afterwards.
pub fn lent(places: usize, call: impl FnOnce(&mut [u32]) -> Answer) -> (Answer, Vec<u32>) {
    let mut out = marks(places + GUARDS);
    let guards = out[places..].to_vec();
    let answer = call(&mut out[..places]);
    assert_eq!(out[places..], guards, "a guard was changed");
    out.truncate(places);
    (answer, out)
}

/// What an accepted list leaves: its words in the first places, and the marks behind.
pub fn filled(words: &[u32], places: usize) -> Vec<u32> {
    let mut out = marks(places);
    out[..words.len()].copy_from_slice(words);
    out
}

/// Asserts that a list call writes the words, with the answer due: with as many places as they need and with more. With one place too few
/// it is refused, and the slice is as it came.
pub fn assert_lists(
    call: impl Fn(&mut [u32]) -> Answer,
    words: &[u32],
    due: Answer,
    context: &str,
) {
    for places in [words.len(), words.len() + 5] {
        let (answer, out) = lent(places, &call);
        assert_eq!(answer, due, "{context}");
        assert_eq!(out, filled(words, places), "{context}");
    }
    if let Some(short) = words.len().checked_sub(1) {
        let (answer, out) = lent(short, &call);
        let refusal = Answer::refused(3, words.len());
        assert_eq!(answer, refusal, "{context}, a place short");
        assert_eq!(out, marks(short), "{context}, a place short");
    }
}

/// Asserts what request C-12 claims of a count's answer and its list call. Where the count is accepted with k, the list into k places or
/// more is accepted and writes k words, and into fewer it is refused with 3 and the value k. Where the count is refused, the list is refused
/// with the same number and value, whatever the slice. Where the list is refused by anything but 3, so is the count, in the same way.
pub fn assert_count_and_list_agree(
    name: &str,
    counted: Answer,
    list: impl Fn(&mut [u32]) -> Answer,
    generator: &mut Generator,
) {
    let k = counted.written;
    let some = generator.below(2 * k + 20);
    for places in [0, k.saturating_sub(1), k, k + 1, some, MOST_REPORT] {
        let (answer, out) = lent(places, &list);
        let context = format!("{name} and its list into {places} places");
        if answer.number != 0 && answer.number != 3 {
            assert_eq!(counted, answer, "{context}");
        }
        if counted.number != 0 {
            assert_eq!((answer, out), (counted, marks(places)), "{context}");
        } else if places < k {
            let refused = (Answer::refused(3, k), marks(places));
            assert_eq!((answer, out), refused, "{context}");
        } else {
            assert_eq!(counted, Answer::of_words(k), "{context}");
            let numbers = (answer.number, answer.value, answer.written);
            assert_eq!(numbers, (0, 0, k), "{context}");
            assert_written(&out, k, &context);
        }
    }
}

/// Asserts that the first so many places were written, and no others.
fn assert_written(out: &[u32], written: usize, context: &str) {
    let unwritten = marks(out.len());
    assert_eq!(out[written..], unwritten[written..], "{context}");
    let mut first = out.iter().zip(&unwritten).take(written);
    assert!(first.all(|(word, mark)| word != mark), "{context}");
}

/// A tracker to which the letters were added.
pub fn tracked(calls: &dyn Calls, letters: &[u8]) -> Fields {
    let mut tracker = Fields::zero();
    for &letter in letters {
        assert_eq!(calls.add(&mut tracker, letter), Answer::default());
    }
    tracker
}

/// The call's answer, and for a list the slice afterwards.
pub fn step(calls: &dyn Calls, tracker: &mut Fields, call: Call) -> (Answer, Vec<u32>) {
    match call {
        Call::Add(letter) => (calls.add(tracker, letter), Vec::new()),
        Call::TakeBack => (calls.take_back(tracker), Vec::new()),
        Call::Clear => (calls.clear(tracker), Vec::new()),
        Call::List(places) => lent(places, |out| calls.list(tracker, out)),
        Call::Count => (calls.count(tracker), Vec::new()),
    }
}

/// Sets both totals of a tracker to any number. No call reads them.
pub fn any_totals(tracker: &mut Fields, generator: &mut Generator) {
    for total in [&mut tracker.live, &mut tracker.ended] {
        let some = generator.below(BOARD + 1);
        *total = generator.pick(&[0, 1, some, BOARD, 1 << 40, usize::MAX]);
    }
}

/// The entries that are not 0, of bytes or a board, by place.
pub fn sparse(entries: &[u8]) -> Vec<(usize, u8)> {
    let all = entries.iter().copied().enumerate();
    all.filter(|&(_, entry)| entry != 0).collect()
}

/// Asserts that two trackers are equal in every field. A difference is printed by place.
pub fn assert_same_fields(left: &Fields, right: &Fields) {
    if left != right {
        assert_eq!(left.length, right.length, "the length");
        assert_eq!(sparse(&left.bytes), sparse(&right.bytes), "the bytes");
        assert_eq!(sparse(&left.board), sparse(&right.board), "the board");
        assert_eq!(left.live, right.live, "live");
        assert_eq!(left.ended, right.ended, "ended");
    }
}

/// Compares one list call of the library with the second implementation on a slice of so many places. Returns the answer.
pub fn compare_list(name: &str, call: ListCall, word: &[u8], places: usize) -> Answer {
    let (answer, out) = lent(places, |out| call(&Library, word, out));
    let (due, out_due) = lent(places, |out| call(&Reference, word, out));
    assert_eq!(answer, due, "{name} with {places} places");
    assert_eq!(out, out_due, "{name} with {places} places: the slice");
    answer
}

/// Compares every call on a word: each list call with places enough and with some number of places around what is needed, its count, the
/// search for a cover, and the judge on every pair in range.
pub fn compare_word(word: &[u8], generator: &mut Generator) {
    let _shown = shown(word);
    for ((name, call), (count_name, count)) in LIST_CALLS.into_iter().zip(COUNT_CALLS) {
        let listed = compare_list(name, call, word, places_enough(word.len()));
        // The trials, s and T stay with the list.
        let due = Answer {
            trials: 0,
            s: 0,
            t: 0,
            ..listed
        };
        assert_eq!(count(&Library, word), due, "{count_name}");
        let needed = listed.written;
        let some = generator.below(needed + 1);
        let places = generator.pick(&[some, needed.saturating_sub(1), needed, needed + 1]);
        compare_list(name, call, word, places);
    }
    assert_eq!(
        Library.find_cover(word),
        Reference.find_cover(word),
        "find_cover"
    );
    for pair in pairs(word.len()) {
        let verdict = Library.judge(word, pair.head, pair.period);
        let due = Reference.judge(word, pair.head, pair.period);
        assert_eq!(verdict, due, "judge {pair:?}");
    }
}

/// The numbers of letters that random words are made of.
pub fn alphabets() -> std::ops::RangeInclusive<usize> {
    1..=LETTERS
}
