//! real FOLDER: every face of every font with a glyf table below the folder, with ten lists of ids
//! each, and rooms one short.
use oracle::bytes::u32_at;
use oracle::generate::{Case, Rng, Room};
use oracle::judge::judge;
use oracle::original::hush_panics;
use oracle::paper::{self, Request, Rules};
use oracle::report::Report;
use std::fs;
use std::path::{Path, PathBuf};
use std::process::ExitCode;

fn main() -> ExitCode {
    hush_panics();
    let mut files = vec![];
    let folder = std::env::args().nth(1).expect("real FOLDER");
    find(Path::new(&folder), &mut files);
    files.sort();
    let mut report = Report::default();
    let (mut fonts, mut faces, mut collections) = (0, 0, 0);
    for file in &files {
        let font = fs::read(file).expect("a file just listed");
        let count = face_count(&font);
        let cut: Vec<_> = (0..count).filter_map(|index| Some((index, glyphs(&font, index)?))).collect();
        for &(index, n) in &cut {
            let name = file.file_name().unwrap().to_string_lossy();
            for (number, (ids, scratch, out)) in questions(n).into_iter().enumerate() {
                let case = Case { font: font.clone(), index, ids, scratch, out };
                report.add(&format!("{name}#{index} list {number}"), &case, judge(&case));
            }
        }
        fonts += usize::from(!cut.is_empty());
        collections += usize::from(!cut.is_empty() && font.starts_with(b"ttcf"));
        faces += cut.len();
    }
    println!("{} files, {fonts} with glyf, {collections} of them collections, {faces} faces", files.len());
    report.print()
}

fn find(place: &Path, files: &mut Vec<PathBuf>) {
    if place.is_dir() {
        let inside = fs::read_dir(place).expect("a folder that can be read");
        inside.for_each(|entry| find(&entry.unwrap().path(), files));
    } else if place
        .extension()
        .is_some_and(|end| ["ttf", "ttc", "otf", "otc"].iter().any(|known| end.eq_ignore_ascii_case(known)))
    {
        files.push(place.to_owned());
    }
}

fn face_count(font: &[u8]) -> u32 {
    if font.starts_with(b"ttcf") {
        u32_at(font, 8).unwrap_or(0) as u32
    } else {
        1
    }
}

/// n of a face with outlines in glyf; the paper refuses others with 2.
fn glyphs(font: &[u8], index: u32) -> Option<usize> {
    let judgement = paper::judge(&Request { font, index, ids: &[] }, Rules::paper());
    match judgement.outcome {
        Err(2) => None,
        _ => Some(judgement.glyphs.unwrap_or(0)),
    }
}

/// Each list in rooms that are enough, and one of them in rooms that are one short.
fn questions(n: usize) -> Vec<(Vec<u16>, Room, Room)> {
    let lists = lists(n);
    let short = lists[3].clone();
    let enough = [(Room::Exact, Room::Exact), (Room::Larger(77), Room::Larger(1_000))];
    let mut questions: Vec<_> = lists
        .into_iter()
        .zip(enough.into_iter().cycle())
        .map(|(ids, (scratch, out))| (ids, scratch, out))
        .collect();
    questions.push((short.clone(), Room::OneShort, Room::Exact));
    questions.push((short, Room::Exact, Room::OneShort));
    questions
}

fn lists(n: usize) -> Vec<Vec<u16>> {
    let rng = &mut Rng::new(n as u64, 0);
    let all: Vec<u16> = (0..n.min(65_535)).map(|id| id as u16).collect();
    let mut lists = vec![vec![]];
    for count in [1, 5, 100, 1_000] {
        let step = (all.len() / count).max(1);
        lists.push(all.iter().copied().skip(step / 2).step_by(step).take(count).collect());
    }
    for count in [20, 300, 3_000] {
        lists.push((0..count).map(|_| rng.below(n.max(1)) as u16).collect());
    }
    lists.push(all.iter().rev().copied().collect());
    lists.push(all);
    lists
}
