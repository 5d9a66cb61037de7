//! Tests and times of Luffbutton. `reference` is a second implementation, `peers` has other algorithms to compare times with,
//! `generator` makes words, `calls` lets one test run on the library and on the second implementation, and `measure` and `markdown` take
//! times and write their tables.
#![forbid(unsafe_code)]

pub mod calls;
pub mod generator;
pub mod library;
pub mod markdown;
pub mod measure;
pub mod peers;
pub mod reference;
