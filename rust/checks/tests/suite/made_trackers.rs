//! Trackers that no calls have made, damaged or not, with any board: one call on the library and on the second implementation's step by
//! fields. Answers, slices and every field afterwards are compared.
use crate::records::Call;
use crate::support::{any_totals, assert_count_and_list_agree, assert_same_fields, lent, marks};
use crate::support::{not_a_letter, seeded, sparse, step, Shown};
use checks::calls::{Answer, Calls};
use checks::generator::Generator;
use checks::library::Library;
use checks::reference::Reference;
use luffbutton::{Fields, BOARD, LETTERS, LONGEST};

/// To be held while a tracker is tried.
fn shown(tracker: &Fields) -> Shown {
    Shown(format!(
        "tracker: length {}, bytes {:?}, board {:?}, live {}, ended {}",
        tracker.length,
        sparse(&tracker.bytes),
        sparse(&tracker.board),
        tracker.live,
        tracker.ended
    ))
}

/// A length: mostly of some dozen letters, now and then near the longest.
fn length(generator: &mut Generator) -> usize {
    match generator.below(8) {
        0 => LONGEST,
        1 => LONGEST - 1 - generator.below(3),
        2 => generator.below(3),
        _ => generator.below(70),
    }
}

/// Any entry: mostly such as take-backs and adds look at.
fn entry(generator: &mut Generator, length: usize) -> u8 {
    let any = generator.byte();
    let (here, next) = (length as u8, (length + 1).min(255) as u8);
    generator.pick(&[0, 0, 1, here, next, LONGEST as u8, 255, any])
}

/// A tracker that is not damaged: letters within the length, any bytes beyond it, any board, sparse or dense, and any totals.
fn made(generator: &mut Generator) -> Fields {
    let mut tracker = Fields::zero();
    tracker.length = length(generator);
    let k = 1 + generator.below(LETTERS);
    let letters = if tracker.length > 0 && generator.once_in(2) {
        generator.cyclic(tracker.length, k).0
    } else {
        generator.uniform(tracker.length, k)
    };
    tracker.bytes[..letters.len()].copy_from_slice(&letters);
    if generator.once_in(2) {
        tracker.bytes[letters.len()..].fill_with(|| generator.byte());
    }
    if generator.once_in(2) {
        tracker.board.fill_with(|| entry(generator, letters.len()));
    } else {
        for _ in 0..generator.below(60) {
            let place = generator.below(BOARD.min(100 + letters.len() * letters.len()));
            tracker.board[place] = entry(generator, letters.len());
        }
    }
    any_totals(&mut tracker, generator);
    tracker
}

/// Compares one call on a copy of the tracker.
fn compare_add(tracker: &Fields, letter: u8) -> usize {
    let _shown = shown(tracker);
    let (mut left, mut right) = (tracker.clone(), tracker.clone());
    let answer = Library.add(&mut left, letter);
    assert_eq!(answer, Reference.add(&mut right, letter), "add {letter}");
    assert_same_fields(&left, &right);
    answer.number
}

fn compare_take_back(tracker: &Fields) -> usize {
    let _shown = shown(tracker);
    let (mut left, mut right) = (tracker.clone(), tracker.clone());
    let answer = Library.take_back(&mut left);
    assert_eq!(answer, Reference.take_back(&mut right), "take_back");
    assert_same_fields(&left, &right);
    answer.number
}

fn compare_list(tracker: &Fields, places: usize) -> usize {
    let _shown = shown(tracker);
    let (left, right) = (tracker.clone(), tracker.clone());
    let answered = lent(places, |out| Library.list(&left, out));
    let due = lent(places, |out| Reference.list(&right, out));
    assert_eq!(answered, due, "list with {places} places");
    assert_same_fields(&left, tracker);
    assert_same_fields(&right, tracker);
    answered.0.number
}

/// Compares the count, and holds it against the list of the library.
fn compare_count(tracker: &Fields, generator: &mut Generator) -> Answer {
    let _shown = shown(tracker);
    let (left, right) = (tracker.clone(), tracker.clone());
    let answer = Library.count(&left);
    assert_eq!(answer, Reference.count(&right), "count");
    assert_same_fields(&left, tracker);
    assert_same_fields(&right, tracker);
    let list = |out: &mut [u32]| Library.list(&left, out);
    assert_count_and_list_agree("count", answer, list, generator);
    assert_same_fields(&left, tracker);
    answer
}

#[test]
fn adds_to_made_trackers() {
    let mut generator = seeded(60);
    let mut answers = [0; 8];
    for _ in 0..1500 {
        let tracker = made(&mut generator);
        let any = generator.byte();
        let letter = if generator.once_in(8) {
            any
        } else {
            generator.letter(LETTERS)
        };
        answers[compare_add(&tracker, letter)] += 1;
    }
    assert!(
        answers[0] >= 500 && answers[2] >= 50 && answers[4] >= 50,
        "{answers:?}"
    );
}

#[test]
fn take_backs_from_made_trackers() {
    let mut generator = seeded(61);
    let mut answers = [0; 8];
    for _ in 0..1500 {
        answers[compare_take_back(&made(&mut generator))] += 1;
    }
    assert!(answers[0] >= 500 && answers[5] >= 20, "{answers:?}");
}

#[test]
fn lists_of_made_trackers() {
    let mut generator = seeded(62);
    let mut answers = [0; 8];
    for _ in 0..1500 {
        let tracker = made(&mut generator);
        let few = generator.below(300);
        let places = generator.pick(&[0, few, BOARD]);
        answers[compare_list(&tracker, places)] += 1;
    }
    assert!(answers[0] >= 300 && answers[3] >= 300, "{answers:?}");
}

#[test]
fn counts_of_made_trackers() {
    let mut generator = seeded(67);
    let mut many = 0;
    for _ in 0..1500 {
        let tracker = made(&mut generator);
        let answer = compare_count(&tracker, &mut generator);
        assert_eq!(answer.number, 0);
        many += usize::from(answer.written > 300);
    }
    assert!(many >= 300, "{many} counts above 300");
}

/// The entries of pairs out of range do not count: of a tracker of n letters, all others 0, there are as many as pairs in range.
#[test]
fn counts_of_boards_of_zeros() {
    let mut generator = seeded(68);
    for n in 0..=LONGEST {
        let mut tracker = Fields::zero();
        tracker.length = n;
        let letters = generator.uniform(n, LETTERS);
        tracker.bytes[..n].copy_from_slice(&letters);
        let pairs = (n + 1) / 2 * ((n + 2) / 2);
        let answer = compare_count(&tracker, &mut generator);
        assert_eq!(answer, Answer::of_words(pairs), "{n} letters");
    }
}

/// One row of a board open and all others ended, for each row: the calls find the row's pairs, and touch no entry of another row. Where
/// a row begins is found here by going through the pairs.
#[test]
fn boards_with_one_open_row() {
    let mut generator = seeded(69);
    let mut start = 0;
    for p in 1..=LONGEST {
        let end = start + (0..p).filter(|h| h + p <= LONGEST).count();
        let mut tracker = Fields::zero();
        tracker.length = LONGEST;
        tracker.bytes = generator.uniform(LONGEST, 3).try_into().unwrap();
        tracker.board = [LONGEST as u8 - 1; BOARD];
        tracker.board[start..end].fill(0);
        let counted = compare_count(&tracker, &mut generator);
        assert_eq!(counted, Answer::of_words(end - start), "period {p}");
        assert_eq!(compare_list(&tracker, end - start), 0, "period {p}");
        tracker.length = LONGEST - 1;
        assert_eq!(compare_add(&tracker, b'd'), 0, "period {p}");
        start = end;
    }
    assert_eq!(start, BOARD);
}

/// Several calls in a row on one made tracker.
#[test]
fn calls_in_a_row_on_made_trackers() {
    let mut generator = seeded(63);
    for _ in 0..100 {
        let mut left = made(&mut generator);
        let _shown = shown(&left);
        let mut right = left.clone();
        for _ in 0..12 {
            let letter = generator.letter(3);
            let (answer, due) = if generator.once_in(2) {
                (
                    Library.add(&mut left, letter),
                    Reference.add(&mut right, letter),
                )
            } else {
                (
                    Library.take_back(&mut left),
                    Reference.take_back(&mut right),
                )
            };
            assert_eq!(answer, due);
            assert_eq!(Library.count(&left), Reference.count(&right));
            assert_same_fields(&left, &right);
        }
    }
}

/// What stood in the totals changes no answer and nothing that a call leaves: each call on two trackers that differ in them alone. What is refused,
/// a list and a count leave them as they came, each tracker's its own.
#[test]
fn totals_are_not_read() {
    let mut generator = seeded(70);
    let mut kept = 0;
    for _ in 0..400 {
        let tracker = if generator.once_in(4) {
            damaged(&mut generator)
        } else {
            made(&mut generator)
        };
        let _shown = shown(&tracker);
        let any = generator.byte();
        let letter = generator.pick(&[b'a', b'b', any]);
        let few = generator.below(300);
        for call in [
            Call::Add(letter),
            Call::TakeBack,
            Call::Clear,
            Call::List(few),
            Call::Count,
        ] {
            let (mut left, mut right) = (tracker.clone(), tracker.clone());
            any_totals(&mut right, &mut generator);
            let came = (right.live, right.ended);
            let answered = step(&Library, &mut left, call);
            assert_eq!(step(&Library, &mut right, call), answered, "{call:?}");
            if answered.0.number != 0 || matches!(call, Call::List(_) | Call::Count) {
                assert_same_fields(&left, &tracker);
                assert_eq!((right.live, right.ended), came, "{call:?}");
                (right.live, right.ended) = (tracker.live, tracker.ended);
                kept += 1;
            }
            assert_same_fields(&left, &right);
        }
    }
    assert!(kept >= 800, "{kept} calls kept the totals");
}

/// On a board of one value each accepted call leaves as many live or ended pairs as are in range, at every length: of zeros, or of the old length,
/// all are live after a take-back, and of entries that no length has all have ended, after an add too.
#[test]
fn totals_of_boards_of_one_value() {
    let mut generator = seeded(71);
    for n in 0..=LONGEST {
        let mut tracker = Fields::zero();
        tracker.length = n;
        let letters = generator.uniform(n, LETTERS);
        tracker.bytes[..n].copy_from_slice(&letters);
        any_totals(&mut tracker, &mut generator);
        let boards = [(0, true), (n as u8, true), (255, false)];
        for (entry, live) in boards.into_iter().filter(|_| n > 0) {
            let mut shorter = tracker.clone();
            shorter.board.fill(entry);
            assert_eq!(Library.take_back(&mut shorter), Answer::default());
            let pairs = n / 2 * ((n + 1) / 2);
            let due = if live { (pairs, 0) } else { (0, pairs) };
            assert_eq!((shorter.live, shorter.ended), due, "{n} letters, {entry}");
        }
        if n < LONGEST {
            tracker.board.fill(255);
            assert_eq!(Library.add(&mut tracker, b'a'), Answer::default());
            let pairs = (n + 2) / 2 * ((n + 3) / 2);
            assert_eq!((tracker.live, tracker.ended), (0, pairs), "{n} letters");
        }
    }
}

/// A made tracker that is damaged: a length above the longest, or a byte within the length that is no letter.
fn damaged(generator: &mut Generator) -> Fields {
    let mut tracker = made(generator);
    if generator.once_in(2) {
        let some = LONGEST + 1 + generator.below(100);
        tracker.length = generator.pick(&[LONGEST + 1, some, 256, 1 << 40, usize::MAX]);
        return tracker;
    }
    tracker.length = tracker.length.max(1);
    let at = generator.below(tracker.length);
    tracker.bytes[at] = not_a_letter(generator);
    tracker
}

/// Add, take-back, list and count refuse it with 6, before all else, and change nothing; clear leaves it fresh.
#[test]
fn damaged_trackers() {
    let mut generator = seeded(64);
    for _ in 0..600 {
        let tracker = damaged(&mut generator);
        let _shown = shown(&tracker);
        let any = generator.byte();
        for letter in [b'a', any] {
            assert_eq!(compare_add(&tracker, letter), 6);
        }
        assert_eq!(compare_take_back(&tracker), 6);
        for places in [0, 5, BOARD] {
            assert_eq!(compare_list(&tracker, places), 6);
        }
        let counted = compare_count(&tracker, &mut generator);
        assert_eq!(counted, Answer::refused(6, 0));
        let mut left = tracker.clone();
        assert_eq!(
            lent(4, |out| Library.list(&left, out)),
            (Answer::refused(6, 0), marks(4))
        );
        assert_eq!(Library.clear(&mut left).number, 0);
        assert_same_fields(&left, &Fields::zero());
    }
}

/// A bad byte at every place within the length is found.
#[test]
fn a_bad_byte_at_every_place_of_a_tracker() {
    let mut generator = seeded(65);
    let mut tracker = Fields::zero();
    tracker.length = LONGEST;
    let word = generator.uniform(LONGEST, LETTERS);
    tracker.bytes.copy_from_slice(&word);
    assert_eq!(compare_take_back(&tracker), 0);
    for (at, &letter) in word.iter().enumerate() {
        tracker.bytes[at] = 0;
        assert_eq!(compare_add(&tracker, b'a'), 6, "a bad byte at {at}");
        assert_eq!(compare_take_back(&tracker), 6, "a bad byte at {at}");
        assert_eq!(compare_list(&tracker, 3), 6, "a bad byte at {at}");
        let counted = compare_count(&tracker, &mut generator);
        assert_eq!(counted, Answer::refused(6, 0), "a bad byte at {at}");
        tracker.bytes[at] = letter;
    }
}

/// Clear leaves any tracker fresh.
#[test]
fn clears_of_made_trackers() {
    let mut generator = seeded(66);
    for _ in 0..200 {
        let mut tracker = made(&mut generator);
        let _shown = shown(&tracker);
        assert_eq!(Library.clear(&mut tracker), Default::default());
        assert_same_fields(&tracker, &Fields::zero());
    }
}
