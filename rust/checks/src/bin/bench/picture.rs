//! The picture: for each call a panel with the times of all contenders over n, both on logarithmic scales. The counts are in the tables
//! alone, since no other algorithm stands beside them, and so are windows and square-free words, since their records, or the words
//! themselves, have other lengths.
use checks::measure::{Timed, SIZES};
use std::fmt::Write;

/// The lines of the contenders, the library's first.
const COLOURS: [&str; 3] = ["#1a5fb4", "#c64600", "#77767b"];

/// The size of a panel, and of the part of it in which the lines are drawn.
const PANEL: (f64, f64) = (320.0, 250.0);
const PLOT: (f64, f64) = (230.0, 150.0);

/// Where the plot begins in its panel.
const ORIGIN: (f64, f64) = (60.0, 60.0);

/// How many panels stand beside each other.
const COLUMNS: usize = 3;

/// The powers of ten between which a panel's times lie.
struct Decades {
    low: i32,
    high: i32,
}

impl Decades {
    fn of(timed: &Timed) -> Decades {
        let contenders = 0..timed.contenders.len();
        let means = contenders.flat_map(|c| (0..SIZES.len()).map(move |size| timed.mean(size, c)));
        let logs: Vec<f64> = means.map(f64::log10).collect();
        let least = logs.iter().copied().fold(f64::INFINITY, f64::min);
        let greatest = logs.iter().copied().fold(f64::NEG_INFINITY, f64::max);
        Decades {
            low: least.floor() as i32,
            high: greatest.ceil() as i32,
        }
    }

    /// Where a time lies in the plot, from its upper edge.
    fn height(&self, time: f64) -> f64 {
        let part = (time.log10() - f64::from(self.low)) / f64::from(self.high - self.low);
        ORIGIN.1 + PLOT.1 * (1.0 - part)
    }
}

/// Where a size lies in the plot, from its left edge: each is twice the one before.
fn across(size: usize) -> f64 {
    ORIGIN.0 + PLOT.0 * size as f64 / (SIZES.len() - 1) as f64
}

/// The whole picture.
pub fn svg(all: &[Timed]) -> String {
    let rows = all.len().div_ceil(COLUMNS);
    let (width, height) = (PANEL.0 * COLUMNS as f64, PANEL.1 * rows as f64);
    let mut text = format!(
        "<svg xmlns=\"http://www.w3.org/2000/svg\" viewBox=\"0 0 {width} {height}\" font-family=\"sans-serif\" font-size=\"11\">\n\
         <rect width=\"{width}\" height=\"{height}\" fill=\"white\"/>\n"
    );
    for (i, timed) in all.iter().enumerate() {
        let (x, y) = (
            (i % COLUMNS) as f64 * PANEL.0,
            (i / COLUMNS) as f64 * PANEL.1,
        );
        line(&mut text, format!("<g transform=\"translate({x},{y})\">"));
        panel(&mut text, timed);
        line(&mut text, "</g>".to_string());
    }
    text.push_str("</svg>\n");
    text
}

fn line(text: &mut String, content: String) {
    writeln!(text, "{content}").expect("text takes any line");
}

fn panel(text: &mut String, timed: &Timed) {
    let decades = Decades::of(timed);
    let title = format!(
        "<text x=\"{}\" y=\"20\" font-size=\"14\">{}, µs over n</text>",
        ORIGIN.0, timed.call
    );
    line(text, title);
    axes(text, &decades);
    for (contender, name) in timed.contenders.iter().enumerate() {
        curve(text, timed, &decades, contender, name);
    }
}

/// Lines at the powers of ten and at the sizes, with their numbers.
fn axes(text: &mut String, decades: &Decades) {
    let (right, bottom) = (ORIGIN.0 + PLOT.0, ORIGIN.1 + PLOT.1);
    for decade in decades.low..=decades.high {
        let y = decades.height(10f64.powi(decade));
        line(
            text,
            format!(
                "<path d=\"M{} {y:.1}H{right}\" stroke=\"#deddda\"/>",
                ORIGIN.0
            ),
        );
        let label = 10f64.powi(decade);
        let at = ORIGIN.0 - 6.0;
        line(
            text,
            format!(
                "<text x=\"{at}\" y=\"{:.1}\" text-anchor=\"end\">{label}</text>",
                y + 4.0
            ),
        );
    }
    for (size, n) in SIZES.iter().enumerate() {
        let x = across(size);
        line(
            text,
            format!(
                "<path d=\"M{x:.1} {}V{bottom}\" stroke=\"#deddda\"/>",
                ORIGIN.1
            ),
        );
        let at = bottom + 16.0;
        line(
            text,
            format!("<text x=\"{x:.1}\" y=\"{at}\" text-anchor=\"middle\">{n}</text>"),
        );
    }
}

/// A contender's line through its mean times, and its name above the plot.
fn curve(text: &mut String, timed: &Timed, decades: &Decades, contender: usize, name: &str) {
    let colour = COLOURS[contender];
    let point = |size: usize| {
        let y = decades.height(timed.mean(size, contender));
        format!("{:.1},{y:.1}", across(size))
    };
    let points: Vec<String> = (0..SIZES.len()).map(point).collect();
    let points = points.join(" ");
    line(
        text,
        format!(
            "<polyline points=\"{points}\" fill=\"none\" stroke=\"{colour}\" stroke-width=\"2\"/>"
        ),
    );
    let before = timed.contenders[..contender].iter();
    let x = ORIGIN.0
        + before
            .map(|other| 12.0 + 6.0 * other.len() as f64)
            .sum::<f64>();
    line(
        text,
        format!("<text x=\"{x}\" y=\"40\" fill=\"{colour}\">{name}</text>"),
    );
}
