//! The smallest question of each line of docs/DIFFERENCES.md.
use crate::bytes::set16;
use crate::generate::build::{composite, name, post, Build};
use crate::generate::Case;

#[derive(Clone)]
pub struct Line {
    /// Its font, in cases/.
    pub file: &'static str,
    pub case: Case,
    /// The paper's and Pitavele's refusal; 0 for a file.
    pub refusal: u32,
    /// What the crate says, by its two builds.
    pub crate_says: [&'static str; 2],
}

pub fn lines() -> Vec<Line> {
    [crate_and_paper(), crate_and_opentype()].concat()
}

fn line(file: &'static str, font: Build, refusal: u32, crate_says: [&'static str; 2]) -> Line {
    Line { file, case: font.ask(&[]), refusal, crate_says }
}

/// One glyph without outline, and tables as short as the paper allows.
fn least() -> Build {
    Build::empty(1)
        .with(b"head", vec![0; 52])
        .with(b"hhea", ending(36, 1))
        .with(b"hmtx", vec![0; 4])
        .with(b"maxp", vec![0; 6])
}

/// Zeros with a word at their end.
fn ending(length: usize, word: usize) -> Vec<u8> {
    let mut table = vec![0; length];
    set16(&mut table, length - 2, word);
    table
}

/// Zeros with a word at their start.
fn starting(length: usize, word: usize) -> Vec<u8> {
    let mut table = vec![0; length];
    set16(&mut table, 0, word);
    table
}

/// Where the crate's answer isn't the paper's.
fn crate_and_paper() -> Vec<Line> {
    let prefixes: Vec<_> = (0..81).map(|less| (860 - less, 0)).collect();
    vec![
        line("hhea-2", least().with(b"hhea", starting(2, 1)), 3, ["file"; 2]),
        line("hhea-33", least().with(b"hhea", starting(33, 1)), 3, ["file"; 2]),
        line("hhea-34", least().with(b"hhea", starting(34, 1)), 3, ["MalformedFont"; 2]),
        line("no-hmtx", least().without(b"hmtx"), 3, ["file, 4 tables"; 2]),
        line("no-hmtx-no-hhea", least().without(b"hmtx").without(b"hhea"), 3, ["file, 4 tables"; 2]),
        line("no-maxp", least().without(b"maxp"), 3, ["file, 5 tables"; 2]),
        unsorted("tags-harmless", 7, 8, ["file, 7 tables"; 2]),
        unsorted("tags-lose-tables", 3, 4, ["file, 5 tables"; 2]),
        unsorted("tags-refused", 0, 1, ["UnknownKind"; 2]),
        otto(),
        line("name-storage", least().with(b"name", name(&prefixes, &[b'x'; 860])), 5, ["file", "panic"]),
        line("name-records", least().with(b"name", name(&vec![(0, 0); 5_461], &[])), 5, ["file", "panic"]),
        line("name-sum", least().with(b"name", name(&[(1, 65_535)], &[])), 4, ["SubsetError", "panic"]),
        line(
            "other-error",
            least().with(b"hhea", vec![0; 36]).with(b"maxp", vec![0; 5]),
            3,
            ["OverflowError"; 2],
        ),
        line("no-glyf", least().without(b"glyf"), 2, ["UnknownKind"; 2]),
    ]
}

/// Nine tables, two of them none of ours and last, with two records exchanged.
fn unsorted(file: &'static str, a: usize, b: usize, crate_says: [&'static str; 2]) -> Line {
    let font = least().with(b"cvt ", vec![7; 4]).with(b"yyyy", vec![]).with(b"zzzz", vec![]);
    let mut line = line(file, font, 3, crate_says);
    (0..16).for_each(|i| line.case.font.swap(12 + 16 * a + i, 12 + 16 * b + i));
    line
}

fn otto() -> Line {
    let mut line = line("otto", least(), 2, ["file, 6 tables"; 2]);
    line.case.font[..4].copy_from_slice(b"OTTO");
    line
}

/// Where the paper follows the crate and not OpenType: all give the same bytes, for glyph 1 if
/// there is one.
fn crate_and_opentype() -> Vec<Line> {
    let same = |file, font: Build| Line { file, case: font.ask(&[]), refusal: 0, crate_says: ["file"; 2] };
    let both = |file, font: Build| Line { file, case: font.ask(&[1]), refusal: 0, crate_says: ["file"; 2] };
    // Two long metrics with one advance: the new count is 1, and stands behind the old one.
    let longer_hhea = [ending(36, 2), vec![0, 9]].concat();
    // Glyph 0's name is missing: stored empty, it hides glyph 1's from the next reader.
    let missing = post(&[300, 258], b"\x01a");
    let version_1 = [starting(6, 1), b"kept".to_vec()].concat();
    vec![
        both("hhea-38", Build::empty(2).with(b"hhea", longer_hhea).with(b"hmtx", vec![0; 8])),
        both("post-missing-name", Build::empty(2).with(b"post", missing)),
        same("post-1", least().with(b"post", starting(32, 1))),
        same("name-version-1", least().with(b"name", version_1)),
        same("maxp-half", least().with(b"maxp", vec![0, 0, 0x50, 0, 0, 1])),
        same("maxp-other-count", least().with(b"maxp", ending(6, 500))),
        same("loca-width-256", least().with(b"head", ending(52, 0x0100)).with(b"loca", vec![0; 8])),
        same("flag-not-last", Build::outlines(&[composite(&[(0x0102, 0), (0x0002, 0)], 4)])),
    ]
}
