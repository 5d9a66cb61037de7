//! The C header's numbers and layouts are those of the Rust crate.
use crate::support::lent;
use checks::calls::{Answer, Calls};
use checks::library::Library;
use luffbutton::numbers::{Counted, Cover, Listed, Outcome, Replayed, Scaled, Verdict, Wrote};
use luffbutton::{findings, runs, square_free_words, Alphabet, Fields, Finding, Head, Length};
use luffbutton::{Period, Refusal, Run, BOARD, BOUND_RUNS, CLEAR, FIRST_LETTER, LARGEST_ALPHABET};
use luffbutton::{LETTERS, LONGEST, LONGEST_RECORD, LONGEST_SQUARE_FREE, MOST_FULL, MOST_PERIODS};
use luffbutton::{MOST_REPORT, MOST_SQUARES, MOST_SQUARE_FREE, MOST_WINDOWS, TAKE_BACK};
use std::mem::{offset_of, size_of};

const HEADER: &str = include_str!("../../../../include/luffbutton.h");

/// The root file of the crate runs.
const RUNS: &str = include_str!("../../../../crates/runs/src/lib.rt");

/// Where the Rust crate declares the functions, and its page.
const NUMBERS: &str = include_str!("../../../luffbutton/src/numbers.rs");
const PAGE: &str = include_str!("../../../luffbutton/src/lib.rs");

/// The number that stands behind the name, in a `#define` or in an enum.
fn number(name: &str) -> usize {
    let defined = |line: &str| {
        let words: Vec<&str> = line.split_whitespace().collect();
        match words[..] {
            ["#define", first, number] if first == name => Some(number.to_string()),
            [first, "=", number] if first == name => Some(number.to_string()),
            _ => None,
        }
    };
    let found = HEADER.lines().find_map(defined);
    let found = found.unwrap_or_else(|| panic!("the header has no {name}"));
    let digits = found.trim_end_matches([',', 'u']);
    digits.parse().expect("a number")
}

/// A macro of the header that reads a number from an output word: it shifts the word down, keeps some of its bits, or both.
struct Reader {
    shift: u32,
    kept: u32,
}

impl Reader {
    fn of(name: &str) -> Reader {
        let opening = format!("#define {name}(word) ");
        let found = HEADER.lines().find_map(|line| line.strip_prefix(&opening));
        let body = found.unwrap_or_else(|| panic!("the header has no {name}"));
        let steps = body.replace("(uint32_t)(word)", "").replace(['(', ')'], "");
        let steps: Vec<&str> = steps.split_whitespace().collect();
        let (shift, kept) = match steps[..] {
            [">>", shift] => (shift, "0xffffffffu"),
            ["&", kept] => ("0", kept),
            [">>", shift, "&", kept] => (shift, kept),
            _ => panic!("{name} is {body}"),
        };
        Reader {
            shift: shift.parse().expect("a number"),
            kept: hexadecimal(kept),
        }
    }

    fn read(&self, word: u32) -> usize {
        (word >> self.shift & self.kept) as usize
    }
}

/// A number written as 0x3fffu is.
fn hexadecimal(text: &str) -> u32 {
    let digits = text.strip_prefix("0x").and_then(|x| x.strip_suffix('u'));
    let number = digits.and_then(|digits| u32::from_str_radix(digits, 16).ok());
    number.unwrap_or_else(|| panic!("{text} is no such number"))
}

/// The members of a struct as the header declares them, in their order.
fn members(name: &str) -> Vec<&'static str> {
    let opening = format!("\nstruct {name} {{\n");
    let (_, behind) = HEADER.split_once(&opening).expect("the header's struct");
    let (inside, _) = behind.split_once("};").expect("the struct's end");
    inside
        .lines()
        .map(|line| line.trim().trim_end_matches(';'))
        .collect()
}

/// Asserts that the struct's members are numbers of these names, one behind the other, in the header and in Rust.
macro_rules! assert_numbers {
    ($c:literal, $rust:ident, $($member:ident),*) => {
        let due = [$(concat!("size_t ", stringify!($member))),*];
        assert_eq!(members($c), due, $c);
        let offsets = [$(offset_of!($rust, $member)),*];
        let in_order = (0..offsets.len()).map(|i| i * size_of::<usize>());
        assert!(in_order.eq(offsets), "{}: {offsets:?}", $c);
        assert_eq!(size_of::<$rust>(), due.len() * size_of::<usize>(), $c);
    };
}

/// The text with one space for each stretch of spaces and line breaks.
fn on_one_line(text: &str) -> String {
    let words: Vec<&str> = text.split_whitespace().collect();
    words.join(" ")
}

/// The functions that the header declares and does not define inline, without LUFF_RESTRICT.
fn declared() -> Vec<String> {
    let begins = |opening: &'static str| HEADER.match_indices(opening).map(|(at, _)| at);
    let declarations = begins("\nstruct luff_").chain(begins("\nvoid luff_"));
    let texts = declarations.filter_map(|at| HEADER[at..].split(';').next());
    let functions = texts.filter(|text| text.contains('(') && !text.contains('{'));
    let mut found: Vec<String> = functions
        .map(|text| on_one_line(&text.replace("LUFF_RESTRICT ", "")))
        .collect();
    found.sort_unstable();
    found
}

/// A type of the Rust declarations as the header writes it, up to the name that follows.
fn in_c(rust: &str) -> String {
    if let Some(lent) = rust.strip_prefix("*const ") {
        return format!("const {}*", in_c(lent));
    }
    if let Some(lent) = rust.strip_prefix("*mut ") {
        return format!("{}*", in_c(lent));
    }
    match rust {
        "usize" => "size_t ".to_string(),
        "u32" => "uint32_t ".to_string(),
        "u8" | "[u8 LONGEST]" | "[u8 BOARD]" => "uint8_t ".to_string(),
        named => format!("struct luff_{} ", named.to_lowercase()),
    }
}

/// A function's declaration in Rust as the header writes it.
fn prototype(rust: &str) -> String {
    let (name, rest) = rust.split_once('(').expect("a function");
    let (arguments, returned) = rest.rsplit_once(')').expect("its arguments");
    let argument = |text: &str| {
        let (name, kind) = text.trim().split_once(": ")?;
        Some(in_c(kind) + name)
    };
    let arguments: Vec<String> = arguments.split(',').filter_map(argument).collect();
    let returned = match returned.trim().strip_prefix("-> ") {
        Some(answer) => in_c(answer),
        None => "void ".to_string(),
    };
    format!("{returned}{}({})", name.trim(), arguments.join(", "))
}

/// The functions that the Rust crate declares, as the header writes them. The semicolons left are those between the functions.
fn declared_in_rust() -> Vec<String> {
    let (_, behind) = NUMBERS.split_once("\nextern \"C\" {").expect("a block");
    let (block, _) = behind.split_once("\n}\n").expect("its end");
    let functions = block.replace("[u8; ", "[u8 ");
    let functions = functions.split(';').map(on_one_line);
    let mut found: Vec<String> = functions
        .filter_map(|text| Some(prototype(text.strip_prefix("fn ")?)))
        .collect();
    found.sort_unstable();
    found
}

#[test]
fn functions() {
    assert_eq!(declared(), declared_in_rust());
    assert!(HEADER.contains(" It has twenty-seven functions "));
    assert_eq!(declared().len(), 27);
}

/// Beside each list call on a word the header has a count, which takes the word alone, beside that of windows one which takes pattern and
/// record alone, and beside that of square-free words one which takes alphabet and length alone; a tracker's is inline, as its list is.
#[test]
fn counts() {
    let declared = declared();
    let list = "(const uint8_t *word, size_t n, uint32_t *out, size_t places)";
    let lists = declared.iter().filter_map(|text| text.strip_suffix(list));
    let names: Vec<&str> = lists
        .filter_map(|text| text.split("luff_").last())
        .collect();
    assert_eq!(names.len(), 7);
    for name in names {
        let listed = name.strip_prefix("list_").unwrap_or(name);
        let count =
            format!("struct luff_counted luff_count_{listed}(const uint8_t *word, size_t n)");
        assert!(declared.contains(&count), "{count}");
    }
    let both = "const uint8_t *pattern, size_t m, const uint8_t *record, size_t n";
    let sizes = "struct luff_alphabet alphabet, struct luff_length length";
    for (listed, taken) in [("windows", both), ("square_free", sizes)] {
        let places = "uint32_t *out, size_t places";
        let list = format!("struct luff_wrote luff_list_{listed}({taken}, {places})");
        assert!(declared.contains(&list), "{list}");
        let count = format!("struct luff_counted luff_count_{listed}({taken})");
        assert!(declared.contains(&count), "{count}");
    }
    let inline = "struct luff_counted luff_tracker_count(const struct luff_tracker *tracker)";
    assert!(HEADER.contains(&format!("\nstatic inline {inline}\n")));
}

/// The crates are versions 0.V of the header's version V.
#[test]
fn versions() {
    let version = number("LUFF_VERSION").to_string();
    assert_eq!(version, env!("CARGO_PKG_VERSION_MINOR"));
}

#[test]
fn answers() {
    assert_numbers!("luff_outcome", Outcome, refusal, value);
    assert_numbers!("luff_wrote", Wrote, refusal, value, written);
    assert_numbers!("luff_counted", Counted, refusal, value, words);
    assert_numbers!("luff_listed", Listed, refusal, value, written, trials);
    assert_numbers!("luff_scaled", Scaled, refusal, value, written, s, t);
    assert_numbers!("luff_verdict", Verdict, refusal, value, yes, block, letter);
    assert_numbers!("luff_cover", Cover, refusal, value, yes, length);
    assert_numbers!("luff_replayed", Replayed, refusal, value, refused, written);
}

/// The numbers that are types of their own: each is one number, in the header and in Rust.
#[test]
fn quantities() {
    let sizes = [
        ("luff_head", size_of::<Head>()),
        ("luff_period", size_of::<Period>()),
        ("luff_alphabet", size_of::<Alphabet>()),
        ("luff_length", size_of::<Length>()),
    ];
    for (name, size) in sizes {
        assert_eq!(members(name), ["size_t letters"], "{name}");
        assert_eq!(size, size_of::<usize>(), "{name}");
    }
}

#[test]
fn trackers() {
    let due = [
        "size_t length",
        "uint8_t bytes[LUFF_LONGEST]",
        "uint8_t board[LUFF_BOARD]",
        "size_t live",
        "size_t ended",
    ];
    assert_eq!(members("luff_tracker"), due);
    let bytes = size_of::<usize>();
    assert_eq!(offset_of!(Fields, length), 0);
    assert_eq!(offset_of!(Fields, bytes), bytes);
    assert_eq!(offset_of!(Fields, board), bytes + LONGEST);
    let totals = bytes + LONGEST + BOARD;
    assert_eq!(offset_of!(Fields, live), totals);
    assert_eq!(offset_of!(Fields, ended), totals + bytes);
    assert_eq!(size_of::<Fields>(), totals + 2 * bytes);
    assert!(HEADER.contains(" A tracker takes 14,784 bytes."));
    assert_eq!(size_of::<Fields>(), 14784);
}

#[test]
fn sizes() {
    assert_eq!(number("LUFF_FIRST_LETTER"), usize::from(FIRST_LETTER));
    assert_eq!(number("LUFF_LETTERS"), LETTERS);
    assert_eq!(number("LUFF_LONGEST"), LONGEST);
    assert_eq!(number("LUFF_LONGEST_RECORD"), LONGEST_RECORD);
    assert_eq!(number("LUFF_LARGEST_ALPHABET"), LARGEST_ALPHABET);
    assert_eq!(number("LUFF_LONGEST_SQUARE_FREE"), LONGEST_SQUARE_FREE);
    assert_eq!(number("LUFF_BOARD"), BOARD);
    assert_eq!(number("LUFF_BOUND_RUNS"), BOUND_RUNS);
    // What is proved to be enough is the number of the crate runs.
    assert!(RUNS.contains(&format!("\npub const PLACES: usize = {BOUND_RUNS};\n")));
    assert_eq!(number("LUFF_CALL_TAKE_BACK"), usize::from(TAKE_BACK));
    assert_eq!(number("LUFF_CALL_CLEAR"), usize::from(CLEAR));
}

/// The header and the Rust crate's page name the first letter and the last.
#[test]
fn letters() {
    let [first, last] = [0, LETTERS - 1].map(|place| char::from(FIRST_LETTER + place as u8));
    let header = [
        format!(" LUFF_LETTERS in all, {first} to {last}. "),
        format!(" the number of {first}'s in it, the number of b's, and so on to {last}. "),
    ];
    for text in header {
        assert!(HEADER.replace("\n * ", " ").contains(&text), "{text}");
    }
    assert!(PAGE.contains(&format!(" the bytes `{first}` to `{last}`, ")));
}

/// The limits on stack that the Rust crate's page gives are the header's: one for any call, and one for a call on a tracker. Counts have
/// none of their own.
#[test]
fn stacks() {
    let page = PAGE.replace("\n//! ", " ");
    let any = number("LUFF_STACK_REPORT");
    let tracker = number("LUFF_STACK_TRACKER");
    let due = format!(
        " A call takes up to {} KB of stack, one on a tracker up to {} KB ",
        any / 1024,
        tracker / 1024
    );
    assert!(page.contains(&due), "{due}");
    assert_eq!((any % 1024, tracker % 1024), (0, 0));
    assert!(HEADER.contains("#define LUFF_STACK LUFF_STACK_REPORT\n"));
    let limits: Vec<&str> = HEADER
        .lines()
        .filter_map(|line| line.strip_prefix("#define "))
        .filter_map(|line| line.split_once(' '))
        .filter(|(name, value)| name.starts_with("LUFF_STACK_") && !value.starts_with("LUFF_"))
        .map(|(name, _)| name)
        .collect();
    assert_eq!(limits.len(), 12);
    for name in limits {
        assert!(number(name) <= any, "{name}");
    }
    assert!(number("LUFF_STACK_LIST_WINDOWS") <= 24 * 1024);
}

/// A word of one letter has every list of a word but that of runs at its longest.
#[test]
fn longest_lists() {
    let word = [FIRST_LETTER; LONGEST];
    type List = fn(&[u8], &mut [u32]) -> Answer;
    let lists: [(&str, usize, List); 3] = [
        ("LUFF_MOST_PERIODS", MOST_PERIODS, |word, out| {
            Library.list_plain(word, out)
        }),
        ("LUFF_MOST_SQUARES", MOST_SQUARES, |word, out| {
            Library.list_squares(word, out)
        }),
        ("LUFF_MOST_FULL", MOST_FULL, |word, out| {
            Library.list_full(word, out)
        }),
    ];
    for (name, most, list) in lists {
        assert_eq!(number(name), most, "{name}");
        let answer = lent(most, |out| list(&word, out)).0;
        assert_eq!((answer.number, answer.written), (0, most), "{name}");
    }
}

/// So many places have room for a head and these three lists, and no report takes them all: where all letters are equal there is none.
#[test]
fn bound_on_reports() {
    assert_eq!(number("LUFF_MOST_REPORT"), MOST_REPORT);
    assert_eq!(MOST_REPORT, 28940);
    let mut word = [FIRST_LETTER; LONGEST];
    let refused = lent(MOST_REPORT, |out| Library.report(&word, out)).0;
    assert_eq!(refused, Answer::refused(number("LUFF_ONE_LETTER"), 0));
    word[LONGEST - 1] += 1;
    let answer = lent(MOST_REPORT, |out| Library.report(&word, out)).0;
    assert_eq!(answer, Answer::of_words(answer.written));
    assert!((1..MOST_REPORT).contains(&answer.written));
}

/// The longest list of windows: a pattern of one letter in the longest record of that letter alone.
#[test]
fn longest_list_of_windows() {
    assert_eq!(number("LUFF_MOST_WINDOWS"), MOST_WINDOWS);
    let record = [FIRST_LETTER; LONGEST_RECORD];
    let list = |out: &mut [u32]| Library.list_windows(&record[..1], &record, out);
    assert_eq!(lent(MOST_WINDOWS, list).0, Answer::of_words(MOST_WINDOWS));
}

/// The longest list of square-free words: of all alphabets and lengths that are taken, the largest and the greatest have so many words. One
/// letter more, and a length more, are refused.
#[test]
fn longest_list_of_square_free_words() {
    assert_eq!(number("LUFF_MOST_SQUARE_FREE"), MOST_SQUARE_FREE);
    assert!(HEADER.contains(" square-free words, 204,480 bytes, "));
    assert_eq!(MOST_SQUARE_FREE * size_of::<u32>(), 204480);
    let count = |k, n| Library.count_square_free(Alphabet(k), Length(n));
    let (largest, longest) = (LARGEST_ALPHABET, LONGEST_SQUARE_FREE);
    for k in 1..=largest {
        for n in 0..=longest {
            let counted = count(k, n);
            assert_eq!(counted, Answer::of_words(counted.written));
            assert!(counted.written <= MOST_SQUARE_FREE, "{k}, {n}");
        }
    }
    let list = |out: &mut [u32]| Library.list_square_free(Alphabet(largest), Length(longest), out);
    let due = Answer::of_words(MOST_SQUARE_FREE);
    assert_eq!(lent(MOST_SQUARE_FREE, list).0, due);
    let refused = ["LUFF_SQUARE_FREE_ALPHABET", "LUFF_SQUARE_FREE_LENGTH"].map(number);
    let due = refused.map(|number| Answer::refused(number, 0));
    assert_eq!([count(largest + 1, 0), count(1, longest + 1)], due);
}

/// What the header says of the words that a search goes through: those of fewer letters than the longest.
#[test]
fn words_that_a_search_goes_through() {
    let count = |n| Library.count_square_free(Alphabet(LARGEST_ALPHABET), Length(n));
    let shorter: usize = (0..LONGEST_SQUARE_FREE).map(|n| count(n).written).sum();
    assert_eq!(shorter, 58637);
    let text = " of which there are 58,637 at most, for k = 4 and n = 12.";
    assert!(HEADER.replace("\n * ", " ").contains(text));
}

#[test]
fn refusals_and_kinds() {
    let refusals = [
        ("LUFF_TOO_LONG", Refusal::TooLong),
        ("LUFF_NOT_A_LETTER", Refusal::NotALetter { position: 1 }),
        ("LUFF_SLICE_TOO_SHORT", Refusal::SliceTooShort { needed: 1 }),
        ("LUFF_TRACKER_FULL", Refusal::TrackerFull),
        ("LUFF_TRACKER_EMPTY", Refusal::TrackerEmpty),
        ("LUFF_TRACKER_DAMAGED", Refusal::TrackerDamaged),
        ("LUFF_PAIR_OUT_OF_RANGE", Refusal::PairOutOfRange),
        ("LUFF_PATTERN_EMPTY", Refusal::PatternEmpty),
        ("LUFF_RECORD_TOO_LONG", Refusal::RecordTooLong),
        ("LUFF_ONE_LETTER", Refusal::OneLetter),
        ("LUFF_SQUARE_FREE_ALPHABET", Refusal::SquareFreeAlphabet),
        ("LUFF_SQUARE_FREE_LENGTH", Refusal::SquareFreeLength),
    ];
    for (name, refusal) in refusals {
        assert_eq!(number(name), refusal.number(), "{name}");
    }
    // The report of abba: its head, a full period, four periods, two squares.
    let (answer, out) = lent(20, |out| Library.report(b"abba", out));
    let kinds: Vec<usize> = out[..answer.written]
        .iter()
        .map(|&x| (x >> 28) as usize)
        .collect();
    let [head, full] = ["LUFF_KIND_REPORT", "LUFF_KIND_FULL"].map(number);
    let [period, square] = ["LUFF_KIND_PERIOD", "LUFF_KIND_SQUARE"].map(number);
    assert_eq!(
        kinds,
        [head, full, period, period, period, period, square, square]
    );
}

/// The macros read from a run's two words what the Rust crate reads from them.
#[test]
fn runs_by_macros() {
    let word = [FIRST_LETTER; LONGEST];
    let (answer, out) = lent(BOUND_RUNS, |out| Library.list_runs(&word, out));
    let words = &out[..answer.written];
    let kinds = ["LUFF_KIND_RUN", "LUFF_KIND_HANDS"].map(number);
    let [kind, upper, lower] =
        ["LUFF_WORD_KIND", "LUFF_WORD_UPPER", "LUFF_WORD_LOWER"].map(Reader::of);
    let [end, left, right] = ["LUFF_RUN_END", "LUFF_RUN_LEFT", "LUFF_RUN_RIGHT"].map(Reader::of);
    let by_macros = |both: &[u32]| {
        assert_eq!([kind.read(both[0]), kind.read(both[1])], kinds);
        Run {
            period: Period(upper.read(both[0])),
            start: lower.read(both[0]),
            end: end.read(both[1]),
            left: left.read(both[1]),
            right: right.read(both[1]),
        }
    };
    assert_eq!(words.len(), 2 * 4840);
    assert!(runs(words).eq(words.chunks(2).map(by_macros)));
}

/// The macros read from a window's word what the Rust crate reads from it, also a start that 14 bits do not hold.
#[test]
fn windows_by_macros() {
    let record = [FIRST_LETTER; LONGEST_RECORD];
    let (answer, out) = lent(MOST_WINDOWS, |out| {
        Library.list_windows(&record[..1], &record, out)
    });
    let words = &out[..answer.written];
    let [kind, start] = ["LUFF_WORD_KIND", "LUFF_WINDOW_START"].map(Reader::of);
    let window = number("LUFF_KIND_WINDOW");
    let by_macros = |&word: &u32| {
        assert_eq!(kind.read(word), window);
        let start = start.read(word);
        Finding::Window { start }
    };
    let last = words.last().map(by_macros);
    assert_eq!(last, Some(Finding::Window { start: 65536 }));
    assert!(findings(words).eq(words.iter().map(by_macros)));
}

/// The macros read from a square-free word's word the number that the Rust crate reads from it, also one that 14 bits do not hold, and from
/// the number come the letters as the header says it.
#[test]
fn square_free_words_by_macros() {
    let (alphabet, length) = (Alphabet(LARGEST_ALPHABET), Length(LONGEST_SQUARE_FREE));
    let (answer, out) = lent(MOST_SQUARE_FREE, |out| {
        Library.list_square_free(alphabet, length, out)
    });
    let words = &out[..answer.written];
    let [kind, number_below] = ["LUFF_WORD_KIND", "LUFF_SQUARE_FREE_NUMBER"].map(Reader::of);
    let square_free = number("LUFF_KIND_SQUARE_FREE");
    let by_macros = |&word: &u32| {
        assert_eq!(kind.read(word), square_free);
        number_below.read(word)
    };
    let numbers: Vec<usize> = words.iter().map(by_macros).collect();
    assert!(numbers.last() > Some(&(1 << 23)), "{:?}", numbers.last());
    let found = numbers.iter().map(|&number| Finding::SquareFree { number });
    assert!(findings(words).eq(found));
    let letters = |mut number: usize| {
        let mut letters = [0; LONGEST_SQUARE_FREE];
        for i in (0..LONGEST_SQUARE_FREE).rev() {
            letters[i] = FIRST_LETTER + (number % LARGEST_ALPHABET) as u8;
            number /= LARGEST_ALPHABET;
        }
        letters
    };
    let read = square_free_words(words, alphabet, length).map(|word| word.to_vec());
    assert!(read.eq(numbers.into_iter().map(letters)));
}
