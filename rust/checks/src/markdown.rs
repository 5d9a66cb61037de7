//! Tables, as markdown.
use std::fmt::Write;

/// A row of a table.
pub fn row(text: &mut String, cells: &[String]) {
    writeln!(text, "| {} |", cells.join(" | ")).expect("text takes any row");
}

/// The first row of a table, and the line below it.
pub fn header(text: &mut String, cells: &[String]) {
    row(text, cells);
    row(text, &vec!["---".to_string(); cells.len()]);
}

/// A time or a ratio with three digits.
pub fn three_digits(value: f64) -> String {
    let digits = (2 - value.log10().floor() as i32).clamp(0, 4) as usize;
    format!("{value:.digits$}")
}
