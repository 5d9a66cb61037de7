//! Times the library's calls beside the papers' algorithms in plain Rust, on the same words in the same run.
//!
//!     bench [DOCS]
//!     bench --windows
//!     bench --square-free
//!
//! The first prints the tables. With the folder DOCS it also writes them into DOCS/PERFORMANCE.md, between its two marks, and a picture to
//! DOCS/performance.svg. The second times windows alone and prints their tables, and the third does so of square-free words.
#![forbid(unsafe_code)]

mod contenders;
mod picture;
mod square_free;
mod tables;
mod windows;

use checks::measure::{better, over_passes, Timed};
use contenders::{time_adds, time_count, time_judge, time_trackers, time_word_call};
use contenders::{Trackers, COUNTS, WORD_CALLS};
use std::path::Path;
use std::{env, fs};

/// Where the tables begin and end in PERFORMANCE.md.
const BEGIN: &str = "<!-- tables: written by rust/checks/src/bin/bench -->";
const END: &str = "<!-- end of tables -->";

fn main() {
    let argument = env::args().nth(1);
    match argument.as_deref() {
        Some("--windows") => return print_alone(windows::pass, tables::of_windows),
        Some("--square-free") => return print_alone(square_free::pass, tables::of_square_free),
        _ => {}
    }
    let times = over_passes(pass, Times::better);
    let text = tables::markdown(&times);
    print!("{text}");
    if let Some(docs) = argument {
        let docs = Path::new(&docs);
        fs::write(docs.join("performance.svg"), picture::svg(&times.calls))
            .expect("the picture is written");
        let page = docs.join("PERFORMANCE.md");
        let old = fs::read_to_string(&page).expect("PERFORMANCE.md is there");
        fs::write(&page, renewed(&old, &text)).expect("PERFORMANCE.md is written");
    }
}

/// Times some calls alone and prints their tables.
fn print_alone(pass: fn() -> Vec<Timed>, tables: fn(&[Timed]) -> String) {
    let times = over_passes(pass, |all, others| better(all, others));
    print!("{}", tables(&times));
}

/// All times: those of the calls beside their peers, those of the counts beside their lists, those of a full tracker's other calls, those of
/// windows, and those of square-free words.
pub struct Times {
    calls: Vec<Timed>,
    counts: Vec<Timed>,
    trackers: Trackers,
    windows: Vec<Timed>,
    square_free: Vec<Timed>,
}

impl Times {
    /// The better of two passes, time by time.
    fn better(self, other: &Times) -> Times {
        Times {
            calls: better(self.calls, &other.calls),
            counts: better(self.counts, &other.counts),
            trackers: self.trackers.better(&other.trackers),
            windows: better(self.windows, &other.windows),
            square_free: better(self.square_free, &other.square_free),
        }
    }
}

/// Times everything once.
fn pass() -> Times {
    let mut calls: Vec<Timed> = WORD_CALLS.iter().map(time_word_call).collect();
    calls.push(time_judge());
    calls.push(time_adds());
    Times {
        calls,
        counts: COUNTS.iter().map(time_count).collect(),
        trackers: time_trackers(),
        windows: windows::pass(),
        square_free: square_free::pass(),
    }
}

/// The page with the text between its marks renewed.
fn renewed(page: &str, text: &str) -> String {
    let (before, rest) = page
        .split_once(BEGIN)
        .expect("the mark where the tables begin");
    let (_, after) = rest.split_once(END).expect("the mark where the tables end");
    format!("{before}{BEGIN}\n\n{text}\n{END}{after}")
}
