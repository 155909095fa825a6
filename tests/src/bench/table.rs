//! How times are shown: as rates or, beside those of another commit's library, as they are.

use super::rows::Row;
use super::timing::Timed::{Copied, Engine, Other, Plain, Set};
use super::timing::Times;

/// A column's heading, and what stands in it.
type Column = (&'static str, fn(&Row, &Times) -> Option<f64>);

pub struct Table {
    pub unit: &'static str,
    /// What stands above the headings of columns.
    above: &'static str,
    columns: &'static [Column],
}

pub const RATES: Table = Table {
    unit: "Writes, and pixels of their spans, masked or not, in millions a second.",
    above: "            engine             plain   memset   memcpy engine's time over that of",
    columns: &[
        ("writes", |row, times| writes(row, times.median(Engine))),
        ("pixels", |row, times| pixels(row, times.median(Engine))),
        ("writes", |row, times| writes(row, times.median(Plain))),
        ("pixels", |row, times| pixels(row, times.median(Plain))),
        ("pixels", |row, times| pixels(row, times.median(Set))),
        ("pixels", |row, times| pixels(row, times.median(Copied))),
        ("plain", |_, times| times.ratio(Engine, Plain)),
        ("memset", |_, times| times.ratio(Engine, Set)),
        ("memcpy", |_, times| times.ratio(Engine, Copied)),
    ],
};

pub const TIMES: Table = Table {
    unit: "Nanoseconds for a write, or for both where a row says so.",
    above: "                                          this tree's time over",
    columns: &[
        ("this", |_, times| nanoseconds(times.median(Engine))),
        ("other", |_, times| nanoseconds(times.median(Other))),
        ("plain", |_, times| nanoseconds(times.median(Plain))),
        ("memset", |_, times| nanoseconds(times.median(Set))),
        ("memcpy", |_, times| nanoseconds(times.median(Copied))),
        ("plain", |_, times| times.ratio(Engine, Plain)),
        ("other", |_, times| times.ratio(Engine, Other)),
    ],
};

fn writes(row: &Row, seconds: Option<f64>) -> Option<f64> {
    seconds.map(|seconds| row.writes_a_turn as f64 / seconds / 1e6)
}

fn pixels(row: &Row, seconds: Option<f64>) -> Option<f64> {
    let drawn = seconds.filter(|_| row.pixels > 0);
    drawn.map(|seconds| row.pixels as f64 / seconds / 1e6)
}

fn nanoseconds(seconds: Option<f64>) -> Option<f64> {
    seconds.map(|seconds| seconds * 1e9)
}

impl Table {
    pub fn print_heading(&self) {
        println!("{:<26}{}", "", self.above);
        print_line(
            "",
            self.columns.iter().map(|(heading, _)| heading.to_string()),
        );
    }

    pub fn print_row(&self, row: &Row, times: &Times) {
        let mark = times.other_rule.then(|| String::from("*"));
        let cells = self.columns.iter().map(|(_, of)| cell(of(row, times)));
        print_line(&row.name, cells.chain(mark));
    }
}

fn print_line(name: &str, cells: impl Iterator<Item = String>) {
    let cells: String = cells.map(|cell| format!("{cell:>9}")).collect();
    println!("{name:<26}{cells}");
}

/// Three figures or so, or a dash.
fn cell(value: Option<f64>) -> String {
    match value {
        None => String::from("-"),
        Some(value) if value < 10.0 => format!("{value:.2}"),
        Some(value) if value < 100.0 => format!("{value:.1}"),
        Some(value) => format!("{value:.0}"),
    }
}
