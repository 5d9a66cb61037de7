//! Random lists of tracker calls: after every call the library's answer is the machine's, and its tracker holds the machine's word with
//! the ended lengths of every pair and the number of its periods for live.
use crate::records::Call;
use crate::support::{any_totals, assert_same_fields, lent, not_a_letter, seeded, step, Shown};
use checks::calls::{Answer, Calls};
use checks::generator::Generator;
use checks::library::Library;
use checks::reference::{Machine, Prefixes, Reference};
use luffbutton::{Fields, BOARD, CLEAR, LETTERS, LONGEST, TAKE_BACK};

/// The library's tracker, the second implementation's, and the machine, under the same calls.
struct Compared {
    library: Fields,
    by_fields: Fields,
    machine: Machine,
    prefixes: Prefixes,
    /// How many calls each number had for its answer.
    answers: [usize; 8],
    /// How many of the calls were counts.
    counts: usize,
    /// The calls so far, shown where a test fails.
    shown: Shown,
}

impl Compared {
    fn fresh() -> Compared {
        let mut library = Fields::zero();
        Library.fresh(&mut library);
        Compared {
            library,
            by_fields: Fields::zero(),
            machine: Machine::default(),
            prefixes: Prefixes::default(),
            answers: [0; 8],
            counts: 0,
            shown: Shown("calls:".to_string()),
        }
    }

    /// Makes the call on all three and compares the answers, the slices, and the trackers in every field.
    fn step(&mut self, call: Call) {
        self.shown.0.push_str(&format!(" {call:?}"));
        let before = self.library.clone();
        let (machine, fields, library) =
            (&mut self.machine, &mut self.by_fields, &mut self.library);
        let none = |answer: Answer| (answer, Vec::new());
        let (due, stepped, answer) = match call {
            Call::Add(byte) => (
                none(machine.add(byte)),
                none(Reference.add(fields, byte)),
                none(Library.add(library, byte)),
            ),
            Call::TakeBack => (
                none(machine.take_back()),
                none(Reference.take_back(fields)),
                none(Library.take_back(library)),
            ),
            Call::Clear => (
                none(machine.clear()),
                none(Reference.clear(fields)),
                none(Library.clear(library)),
            ),
            Call::List(places) => (
                lent(places, |out| machine.list(out)),
                lent(places, |out| Reference.list(fields, out)),
                lent(places, |out| Library.list(library, out)),
            ),
            Call::Count => (
                none(machine.count()),
                none(Reference.count(fields)),
                none(Library.count(library)),
            ),
        };
        assert_eq!(stepped, due, "{call:?} by fields");
        assert_eq!(answer, due, "{call:?}");
        let reads = matches!(call, Call::List(_) | Call::Count);
        if reads || answer.0.number != 0 {
            assert_same_fields(&self.library, &before);
        }
        self.answers[answer.0.number] += 1;
        self.counts += usize::from(matches!(call, Call::Count));
        self.compare_trackers();
    }

    fn compare_trackers(&mut self) {
        let due = self.machine.tracker(&mut self.prefixes);
        assert_same_fields(&self.library, &due);
        assert_same_fields(&self.by_fields, &due);
    }

    fn step_all(&mut self, calls: impl IntoIterator<Item = Call>) {
        for call in calls {
            self.step(call);
        }
    }
}

/// Adds of a cyclic word's letters, of n at most, or of any letters.
fn adds(generator: &mut Generator, n: usize) -> Vec<Call> {
    let (n, k) = (1 + generator.below(n), 1 + generator.below(LETTERS));
    let word = if generator.once_in(4) {
        generator.uniform(n, k)
    } else {
        generator.cyclic(n, k).0
    };
    word.into_iter().map(Call::Add).collect()
}

/// A few calls of one kind: adds, take-backs, lists with places enough or not, counts, bytes that are no letters, now and then a clear.
fn some_calls(generator: &mut Generator) -> Vec<Call> {
    match generator.below(14) {
        0..=4 => adds(generator, 24),
        5 | 6 => vec![Call::TakeBack; 1 + generator.below(8)],
        7 => vec![Call::TakeBack; 40],
        8 => vec![Call::Add(not_a_letter(generator))],
        9 | 10 => {
            let few = generator.below(40);
            vec![Call::List(generator.pick(&[0, few, BOARD]))]
        }
        11 | 12 => vec![Call::Count],
        _ if generator.once_in(4) => vec![Call::Clear],
        _ => vec![Call::List(BOARD)],
    }
}

/// Random lists of 300 calls. The words that they make are of some dozen letters.
#[test]
fn random_lists_of_calls() {
    let mut generator = seeded(40);
    let (mut answers, mut counts) = ([0; 8], 0);
    for _ in 0..60 {
        let mut compared = Compared::fresh();
        let mut made = 0;
        while made < 300 {
            let calls = some_calls(&mut generator);
            made += calls.len();
            compared.step_all(calls);
        }
        for (all, here) in answers.iter_mut().zip(compared.answers) {
            *all += here;
        }
        counts += compared.counts;
    }
    assert!(counts >= 100, "{counts} counts were made");
    for number in [0, 2, 3, 5] {
        assert!(
            answers[number] >= 100,
            "refusal {number} was met {} times",
            answers[number]
        );
    }
}

/// Lists of calls that fill the tracker, so that adds are refused, then take back forty letters at a time and fill it again.
#[test]
fn full_trackers() {
    let mut generator = seeded(41);
    for k in [1, 2, 5] {
        let mut compared = Compared::fresh();
        for _ in 0..2 {
            let missing = LONGEST + 3 - compared.machine.letters.len();
            let (word, _) = generator.cyclic(missing, k);
            compared.step_all(word.into_iter().map(Call::Add));
            compared.step_all([Call::List(BOARD), Call::Count, Call::List(3)]);
            compared.step_all([Call::TakeBack; 40]);
            compared.step(Call::Count);
        }
        assert_eq!(compared.answers[4], 6);
    }
}

/// Every letter of a long word is taken back again; the board is as it was at each length, and at last all zero.
#[test]
fn take_backs_to_the_empty_word() {
    let mut generator = seeded(42);
    for k in [1, 3] {
        let mut compared = Compared::fresh();
        let word = generator.near_miss(90, k);
        compared.step_all(word.into_iter().map(Call::Add));
        compared.step_all([Call::TakeBack; 91]);
        assert_eq!(compared.answers[5], 1);
        assert_same_fields(&compared.library, &Fields::zero());
    }
}

/// Two lists of calls that leave one word leave the same tracker, in every field.
#[test]
fn the_word_decides_the_tracker() {
    let mut generator = seeded(43);
    for _ in 0..40 {
        let n = 1 + generator.below(60);
        let (word, _) = generator.cyclic(n, 3);
        let _shown = Shown(word.escape_ascii().to_string());
        let (mut straight, mut roundabout) = (Fields::zero(), Fields::zero());
        for &letter in &word {
            Library.add(&mut straight, letter);
            for detour in adds(&mut generator, 40) {
                let Call::Add(other) = detour else { continue };
                Library.add(&mut roundabout, other);
            }
            while roundabout.length > straight.length - 1 {
                Library.take_back(&mut roundabout);
            }
            Library.add(&mut roundabout, letter);
        }
        assert_eq!(straight.length, word.len());
        assert_same_fields(&straight, &roundabout);
    }
}

/// The same calls with counts among them and without: the other calls' answers are the same, and so is the tracker after each of them.
#[test]
fn counts_change_nothing() {
    let mut generator = seeded(47);
    for _ in 0..40 {
        let (mut with, mut without) = (Fields::zero(), Fields::zero());
        let mut shown = Shown("calls:".to_string());
        let calls: Vec<Call> = (0..20).flat_map(|_| some_calls(&mut generator)).collect();
        for call in calls {
            shown.0.push_str(&format!(" {call:?}"));
            for _ in 0..generator.below(3) {
                assert_eq!(Library.count(&with).number, 0);
            }
            let answers = [&mut with, &mut without].map(|tracker| step(&Library, tracker, call));
            assert_eq!(answers[0], answers[1], "{call:?}");
            assert_same_fields(&with, &without);
        }
    }
}

/// A list of calls for a replay: letters, take-backs, now and then a clear and bytes that are no letters.
fn replay_calls(generator: &mut Generator) -> Vec<u8> {
    let length = generator.below(200);
    let mut calls = Vec::new();
    while calls.len() < length {
        match generator.below(8) {
            0..=4 => calls.extend(generator.cyclic(30, 3).0),
            5 => calls.extend(vec![TAKE_BACK; 1 + generator.below(40)]),
            6 => calls.push(generator.byte()),
            _ => calls.extend(vec![CLEAR; usize::from(generator.once_in(6))]),
        }
    }
    calls
}

/// A replay on fields with any contents: the calls on a fresh tracker, then one list.
#[test]
fn replays() {
    let mut generator = seeded(44);
    let (mut with_refusals, mut short) = (0, 0);
    for _ in 0..150 {
        let calls = replay_calls(&mut generator);
        let _shown = Shown(format!("replay of {}", calls.escape_ascii()));
        let few = generator.below(60);
        let places = generator.pick(&[few, BOARD]);
        let mut due = Fields::zero();
        let mut tracker = Fields::zero();
        tracker.length = generator.below(1000);
        tracker.bytes.fill(generator.byte());
        tracker.board.fill(generator.byte());
        any_totals(&mut tracker, &mut generator);
        let (answer_due, out_due) = lent(places, |out| Reference.replay(&mut due, &calls, out));
        let (answer, out) = lent(places, |out| Library.replay(&mut tracker, &calls, out));
        assert_eq!(answer, answer_due);
        assert_eq!(out, out_due);
        assert_same_fields(&tracker, &due);
        with_refusals += usize::from(answer.refused > 0);
        short += usize::from(answer.number == 3);
    }
    assert!(
        with_refusals >= 20 && short >= 20,
        "{with_refusals} with refusals, {short} short"
    );
}

/// A replay whose calls fill the tracker and go on.
#[test]
fn replays_beyond_the_longest_word() {
    let mut generator = seeded(45);
    for extra in [0, 1, 60] {
        let (calls, _) = generator.cyclic(LONGEST + extra, 2);
        let _shown = Shown(format!("replay of {}", calls.escape_ascii()));
        let (mut due, mut tracker) = (Fields::zero(), Fields::zero());
        let listed_due = lent(BOARD, |out| Reference.replay(&mut due, &calls, out));
        let listed = lent(BOARD, |out| Library.replay(&mut tracker, &calls, out));
        assert_eq!(listed, listed_due);
        assert_eq!(listed.0.refused, extra);
        assert_same_fields(&tracker, &due);
    }
}

/// Fresh writes every field, whatever stood there.
#[test]
fn fresh_is_all_zero() {
    let mut generator = seeded(46);
    for _ in 0..20 {
        let mut tracker = Fields::zero();
        tracker.length = generator.below(1 << 40);
        tracker.bytes.fill_with(|| generator.byte());
        tracker.board.fill_with(|| generator.byte());
        any_totals(&mut tracker, &mut generator);
        Library.fresh(&mut tracker);
        assert_same_fields(&tracker, &Fields::zero());
    }
}
