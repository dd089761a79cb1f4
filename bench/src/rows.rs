//! The table: one row a job.
use crate::bars::{crate_bar, harfbuzz_bar, verdict};
use crate::subjects::{Measured, Times};

pub struct Row {
    pub font: String,
    pub glyphs: usize,
    pub ids: usize,
    pub length: usize,
    pub times: Times,
}

impl Row {
    pub fn new(font: &str, glyphs: usize, ids: usize, measured: Measured) -> Row {
        Row { font: font.to_owned(), glyphs, ids, length: measured.length, times: measured.times }
    }

    pub fn crate_ratio(&self) -> f64 {
        self.times.original / self.times.port
    }

    /// How many bars are missed: the one against the crate, and at 5 ids the one against HarfBuzz.
    pub fn missed(&self) -> usize {
        let behind = self.crate_ratio() < crate_bar(self.glyphs, self.ids);
        let harfbuzz = self.times.harfbuzz.zip(harfbuzz_bar(self.ids));
        usize::from(behind) + usize::from(harfbuzz.is_some_and(|(time, bar)| time / self.times.port < bar))
    }

    pub fn list(&self) -> String {
        if self.ids >= self.glyphs.min(65_535) {
            "all".to_owned()
        } else {
            grouped(self.ids)
        }
    }
}

pub const HEAD: &str = "\
| font (glyphs) | ids | file, bytes | crate µs | HarfBuzz µs | Pitavele µs | floor µs | crate / Pitavele | bar | HarfBuzz / Pitavele | bar | Pitavele / floor |
|---|---|---|---|---|---|---|---|---|---|---|---|";

pub fn print(row: &Row) {
    let Times { original, harfbuzz, port, floor } = row.times;
    let bar = crate_bar(row.glyphs, row.ids);
    let ratio = row.crate_ratio();
    let beside = harfbuzz.map(|time| time / port);
    let beside_bar = beside.zip(harfbuzz_bar(row.ids));
    println!(
        "| {} ({}) | {} | {} | {} | {} | {} | {} | {ratio:.2} | {bar} {} | {} | {} | {:.1} |",
        row.font,
        grouped(row.glyphs),
        row.list(),
        grouped(row.length),
        short(original),
        harfbuzz.map_or("-".to_owned(), short),
        short(port),
        short(floor),
        verdict(ratio, bar),
        beside.map_or("-".to_owned(), |ratio| format!("{ratio:.1}")),
        beside_bar.map_or(String::new(), |(ratio, bar)| format!("{bar} {}", verdict(ratio, bar))),
        port / floor,
    );
}

/// 1234567 as 1,234,567.
pub fn grouped(number: usize) -> String {
    let digits = number.to_string();
    let mut text = String::new();
    for (i, digit) in digits.chars().enumerate() {
        if i > 0 && (digits.len() - i) % 3 == 0 {
            text.push(',');
        }
        text.push(digit);
    }
    text
}

/// Three digits, or all before the point.
pub fn short(number: f64) -> String {
    match number {
        0.0..10.0 => format!("{number:.2}"),
        10.0..100.0 => format!("{number:.1}"),
        _ => grouped(number.round() as usize),
    }
}
