//! What the ratios are held to.

/// Crate / Pitavele, by the font's glyphs and the list's length.
pub fn crate_bar(glyphs: usize, ids: usize) -> f64 {
    let all = ids >= glyphs.min(65_535);
    match (glyphs < 10_000, all, ids) {
        (true, true, _) | (true, _, 1_000..) => 6.0,
        (true, _, 100..) => 4.0,
        (true, _, 5..) => 2.5,
        (false, true, _) => 4.5,
        (false, _, 1_000..) => 2.5,
        _ => LEAST,
    }
}

/// Crate / Pitavele for any font and any list: a huge font's names must be walked along.
pub const LEAST: f64 = 1.15;

/// HarfBuzz / Pitavele at 5 ids.
pub fn harfbuzz_bar(ids: usize) -> Option<f64> {
    (ids <= 5).then_some(10.0)
}

pub fn verdict(ratio: f64, bar: f64) -> &'static str {
    if ratio >= bar {
        "met"
    } else {
        "MISSED"
    }
}
