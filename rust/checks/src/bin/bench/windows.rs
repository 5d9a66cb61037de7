//! What is timed of windows: the library's list and count, beside the same algorithm in plain Rust. There is a random record of 65,536
//! letters for each number of letters, and the shorter records are its parts, each of which is called in turn: a processor that saw one short
//! record again and again would learn where its windows are, and a call would seem faster than it is. Each pattern is cut out of the middle
//! of that record, so that it has one window there at least.
use checks::calls::{Answer, Calls};
use checks::generator::random;
use checks::library::Library;
use checks::measure::{best, repeated, Timed, Turn};
use checks::peers::{count_windows_sliding, list_windows_collected, list_windows_in_two_passes};
use luffbutton::{LETTERS, LONGEST, LONGEST_RECORD, MOST_WINDOWS};
use std::hint::black_box;

/// The lengths of the records.
pub const RECORDS: [usize; 3] = [1024, 16384, LONGEST_RECORD];

/// The lengths of the patterns.
const PATTERNS: [usize; 4] = [1, 8, 60, LONGEST];

/// Of how many letters the records are.
const ALPHABETS: [usize; 3] = [2, 4, LETTERS];

/// A way to make a call on a pattern and a record. A count leaves the places as they are.
type Caller = fn(&[u8], &[u8], &mut [u32]) -> Answer;

/// The contenders for a call by name, the library first.
type Contenders = &'static [(&'static str, Caller)];

/// How many places a call is lent: enough for any list, or just as many as there are windows.
#[derive(Clone, Copy)]
enum Places {
    ForAny,
    AsNeeded,
}

const LISTS: Contenders = &[
    ("library", |pattern, record, out| {
        Library.list_windows(pattern, record, out)
    }),
    ("collected", list_windows_collected),
    ("two passes", list_windows_in_two_passes),
];

const COUNTS: Contenders = &[
    ("library", |pattern, record, _| {
        Library.count_windows(pattern, record)
    }),
    ("one pass", |pattern, record, _| {
        count_windows_sliding(pattern, record)
    }),
];

/// What is timed.
const CALLS: [(&str, Places, Contenders); 3] = [
    ("list_windows", Places::ForAny, LISTS),
    ("list_windows, places as needed", Places::AsNeeded, LISTS),
    ("count_windows", Places::AsNeeded, COUNTS),
];

/// A pattern of m letters for a record over the first k.
#[derive(Clone, Copy)]
struct Kind {
    m: usize,
    k: usize,
}

impl Kind {
    fn all() -> impl Iterator<Item = Kind> {
        let over = |k| PATTERNS.into_iter().map(move |m| Kind { m, k });
        ALPHABETS.into_iter().flat_map(over)
    }

    fn name(self) -> String {
        format!("m = {}, {} letters", self.m, self.k)
    }

    /// The longest record.
    fn record(self) -> Vec<u8> {
        random(LONGEST_RECORD, self.k)
    }

    /// The pattern, cut out of the record's middle.
    fn pattern(self, record: &[u8]) -> &[u8] {
        let middle = record.len() / 2;
        &record[middle..middle + self.m]
    }
}

/// Times all calls once.
pub fn pass() -> Vec<Timed> {
    CALLS.into_iter().map(time_call).collect()
}

fn time_call((call, places, contenders): (&'static str, Places, Contenders)) -> Timed {
    let times = |kind: Kind| {
        let record = kind.record();
        let pattern = kind.pattern(&record);
        let time = |n| time_contenders(contenders, places, pattern, record.chunks(n).collect());
        (kind.name(), RECORDS.map(time).to_vec())
    };
    Timed {
        call,
        contenders: contenders.iter().map(|&(name, _)| name).collect(),
        words: Kind::all().map(times).collect(),
    }
}

/// Times the contenders on a pattern and each of the records, on which they were asserted to agree: the microseconds of one call.
fn time_contenders(
    contenders: Contenders,
    places: Places,
    pattern: &[u8],
    records: Vec<&[u8]>,
) -> Vec<f64> {
    let needed = |record: &&[u8]| match places {
        Places::ForAny => MOST_WINDOWS,
        Places::AsNeeded => Library.count_windows(pattern, record).written,
    };
    let places: Vec<usize> = records.iter().map(needed).collect();
    let lent: Vec<(&[u8], usize)> = records.into_iter().zip(places).collect();
    for &(record, places) in &lent {
        assert_agree(contenders, pattern, record, places);
    }
    let turn = |&(_, caller): &(&str, Caller)| -> Turn<'_> {
        let (lent, mut out) = (&lent, vec![0; MOST_WINDOWS]);
        repeated(move || {
            for &(record, places) in lent {
                let out = black_box(&mut out[..places]);
                black_box(caller(black_box(pattern), black_box(record), out));
            }
        })
    };
    let times = best(contenders.iter().map(turn).collect());
    times.iter().map(|time| time / lent.len() as f64).collect()
}

/// All contenders give the same numbers and words.
fn assert_agree(contenders: Contenders, pattern: &[u8], record: &[u8], places: usize) {
    let run = |caller: Caller| {
        let mut out = vec![0; places];
        (caller(pattern, record, &mut out), out)
    };
    let due = run(contenders[0].1);
    for &(name, caller) in contenders {
        assert!(run(caller) == due, "{name} disagrees");
    }
}

/// How many windows each pattern has in the longest record.
pub fn numbers_of_windows() -> Vec<(String, usize)> {
    let number = |kind: Kind| {
        let record = kind.record();
        let counted = Library.count_windows(kind.pattern(&record), &record);
        (kind.name(), counted.written)
    };
    Kind::all().map(number).collect()
}
