//! `subset` of both crates, and ours in its three forms, on real fonts.
use crate::remappers::Draw;
use std::fs;
use std::path::{Path, PathBuf};

/// The fonts below a folder; a file stands for itself.
pub fn find(place: &Path) -> Vec<PathBuf> {
    if place.is_dir() {
        let inside = fs::read_dir(place).expect("a folder that can be read");
        let mut inside: Vec<_> = inside.map(|entry| entry.unwrap().path()).collect();
        inside.sort();
        return inside.iter().flat_map(|path| find(path)).collect();
    }
    let end = place.extension().map(|end| end.to_ascii_lowercase());
    let known = end.is_some_and(|end| end == "ttf" || end == "ttc");
    if known {
        vec![place.into()]
    } else {
        vec![]
    }
}

/// The number of calls compared; none if the outlines are CFF's.
pub fn compare(file: &Path) -> usize {
    let font = fs::read(file).expect("a file just listed");
    let mut calls = 0;
    for index in 0..face_count(&font) {
        if pitavele::cut(&font, index, &[]) == Err(pitavele::Refusal::NotTrueType) {
            continue;
        }
        for ids in lists(glyphs(&font, index)) {
            same(&font, index, &ids, file);
            calls += 1;
        }
    }
    calls
}

fn face_count(font: &[u8]) -> u32 {
    let collection = font.get(..12).filter(|start| start.starts_with(b"ttcf"));
    collection.map_or(1, |start| u32::from_be_bytes(start[8..].try_into().unwrap()))
}

/// The number of glyphs, from the scratch that a call needs: four numbers for each.
fn glyphs(font: &[u8], index: u32) -> usize {
    let mut scratch = vec![0; pitavele::MAX_SCRATCH];
    let (mut short, mut enough) = (0, 65_536);
    while short < enough {
        let n = (short + enough) / 2;
        match pitavele::subset_into(font, index, &[], &mut scratch[..4 * n], &mut []) {
            Err(pitavele::Refusal::ScratchTooShort) => short = n + 1,
            _ => enough = n,
        }
    }
    enough
}

/// Lists of ids below n, and two with an id that has no glyph.
fn lists(n: usize) -> Vec<Vec<u16>> {
    let mut draw = Draw(n as u64);
    let mut lists = vec![vec![], vec![0], (0..n.min(65_535)).map(|id| id as u16).collect()];
    for count in [1, 5, 40, 300] {
        lists.push((0..count).map(|_| draw.below(n.max(1)) as u16).collect());
    }
    if let Ok(none) = u16::try_from(n) {
        lists.push(vec![none]);
        lists.push(vec![0, 1, u16::MAX]);
    }
    lists
}

fn same(font: &[u8], index: u32, ids: &[u16], file: &Path) {
    let about = || format!("{} face {index} ids {:?}", file.display(), &ids[..ids.len().min(20)]);
    let mapper = pitavele::GlyphRemapper::new_from_glyphs(ids);
    let ours = pitavele::subset(font, index, &mapper);
    let theirs = subsetter::subset(font, index, &subsetter::GlyphRemapper::new_from_glyphs(ids));
    match (&ours, &theirs) {
        (Ok(ours), Ok(theirs)) => assert!(ours == theirs, "{}: other bytes", about()),
        (Err(ours), Err(theirs)) => {
            assert_eq!(format!("{ours:?} {ours}"), format!("{theirs:?} {theirs}"), "{}", about())
        }
        _ => panic!("{}: {} and {}", about(), ours.is_ok(), theirs.is_ok()),
    }
    let cut = pitavele::cut(font, index, ids);
    assert_eq!(cut.clone().map_err(pitavele::Error::from).map(|cut| cut.font), ours, "{}", about());
    lent(font, index, ids, cut);
}

/// The same call in lent memory: exact, one byte short, no scratch.
fn lent(font: &[u8], index: u32, ids: &[u16], cut: Result<pitavele::Cut, pitavele::Refusal>) {
    let mut scratch = vec![7; pitavele::scratch_for(font) + 1];
    let Ok(cut) = cut else {
        let answer = pitavele::subset_into(font, index, ids, &mut scratch, &mut []);
        assert_eq!(answer.unwrap_err(), cut.unwrap_err());
        return;
    };
    let mut out = vec![7; cut.font.len() + 1];
    let short = pitavele::subset_into(font, index, ids, &mut scratch, &mut out[..cut.font.len() - 1]);
    assert_eq!(short, Err(pitavele::Refusal::OutputTooShort { needed: cut.font.len() as u64 }));
    assert!(out.iter().all(|&byte| byte == 7));
    let none = pitavele::subset_into(font, index, ids, &mut [], &mut out);
    assert_eq!(none, Err(pitavele::Refusal::ScratchTooShort));
    let written = pitavele::subset_into(font, index, ids, &mut scratch, &mut out).unwrap();
    assert_eq!((written.count, written.length), (cut.roster.len(), cut.font.len()));
    assert!(out[..written.length] == cut.font && out[written.length] == 7);
    assert!(scratch[..written.count] == cut.roster && scratch.last() == Some(&7));
}
