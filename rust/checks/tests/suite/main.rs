//! Tests of the proved library against document 01 and the requests C-11, C-12, C-13, C-14, C-16, C-17, C-18, C-19 and C-20: outside vectors,
//! marked words, and a second implementation on random words, patterns and records, alphabets and lengths, damaged inputs and lists of tracker
//! calls. The vectors are run on the second implementation as well. Seeds are fixed; a test that fails prints its word, its pattern and
//! record, its alphabet and length, or its calls.
#![forbid(unsafe_code)]
mod counts;
mod damaged;
mod full_periods;
mod header;
mod histories;
mod interface;
mod letters;
mod made_trackers;
mod marked_words;
mod peers;
mod random_words;
mod records;
mod reports;
mod runs;
mod square_free;
mod support;
mod vectors;
mod windows;
