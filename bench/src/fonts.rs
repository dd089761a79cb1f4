//! Real fonts below a folder, and the lists that are asked of them.
use oracle::paper::{self, Request, Rules};
use std::fs;
use std::path::{Path, PathBuf};

/// The fonts of the table, all of Debian packages that oracle/fonts-get downloads: Latin ones of
/// usual size, with and without hints, then large ones, among them a collection.
pub const TABLE: [&str; 8] = [
    "LiberationSans-Regular.ttf",
    "Lato-Regular.ttf",
    "NotoSans-Regular.ttf",
    "DejaVuSans.ttf",
    "NotoSerifTangut-Regular.ttf",
    "FreeSerif.ttf",
    "NotoSansSignWriting-Regular.ttf",
    "wqy-microhei.ttc",
];

pub struct Font {
    pub name: String,
    pub bytes: Vec<u8>,
    /// n of face 0.
    pub glyphs: usize,
}

/// Face 0 of a file, if it is a font that Pitavele cuts.
pub fn open(path: &Path) -> Option<Font> {
    let bytes = fs::read(path).ok()?;
    let judgement = paper::judge(&Request { font: &bytes, index: 0, ids: &[] }, Rules::paper());
    let glyphs = judgement.glyphs.filter(|_| judgement.outcome.is_ok())?;
    Some(Font { name: path.file_name()?.to_string_lossy().into_owned(), bytes, glyphs })
}

/// The first file of this name.
pub fn named(files: &[PathBuf], name: &str) -> Option<Font> {
    files.iter().find(|file| file.file_name().is_some_and(|found| found == name)).and_then(|file| open(file))
}

/// Every file below a folder, in order.
pub fn below(folder: &Path) -> Vec<PathBuf> {
    let mut files = vec![];
    gather(folder, &mut files);
    files.sort();
    files
}

fn gather(place: &Path, files: &mut Vec<PathBuf>) {
    if place.is_dir() {
        fs::read_dir(place).into_iter().flatten().flatten().for_each(|entry| gather(&entry.path(), files));
    } else {
        files.push(place.to_owned());
    }
}

/// 5, 100 and 1,000 ids spread over the font, and all.
pub fn lists(glyphs: usize) -> Vec<Vec<u16>> {
    let counts = [5, 100, 1_000].into_iter().filter(|count| *count < glyphs);
    counts.map(|count| spread(glyphs, count)).chain([all(glyphs)]).collect()
}

pub fn spread(glyphs: usize, count: usize) -> Vec<u16> {
    (0..count).map(|i| (i * glyphs / count + glyphs / (2 * count)) as u16).collect()
}

pub fn all(glyphs: usize) -> Vec<u16> {
    (0..glyphs.min(65_535)).map(|id| id as u16).collect()
}
