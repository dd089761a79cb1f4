//! The crate's promises, on the repository's sample font: glyph 7 is ½, made of 2, 6 and 3.
use pitavele::{cut, scratch_for, subset, subset_into, Cut, Error, GlyphRemapper, Refusal, Written};

const FONT: &[u8] = include_bytes!("../../../sample/press.ttf");
const HALF: u16 = 7;

fn half() -> Cut {
    cut(FONT, 0, &[HALF]).unwrap()
}

/// The place of a table's record.
fn record(tag: &[u8; 4]) -> usize {
    FONT.windows(4).position(|bytes| bytes == tag).unwrap()
}

/// A table's place and length.
fn table(tag: &[u8; 4]) -> (usize, usize) {
    let number = |at: usize| u32::from_be_bytes(FONT[at..at + 4].try_into().unwrap()) as usize;
    (number(record(tag) + 8), number(record(tag) + 12))
}

/// The sample with a table's tag made unknown.
fn without(tag: &[u8; 4]) -> Vec<u8> {
    let mut font = FONT.to_vec();
    font[record(tag) + 3] += 1;
    font
}

#[test]
fn a_composite_brings_its_parts() {
    assert_eq!(half().roster, [0, HALF, 3, 6, 2]);
    assert_eq!(cut(FONT, 0, &[2, HALF, 2]).unwrap().roster, [0, 2, HALF, 3, 6]);
    assert_eq!(cut(FONT, 0, &[]).unwrap().roster, [0]);
}

#[test]
fn cutting_twice_is_cutting_once() {
    let all = cut(FONT, 0, &[9, HALF]).unwrap();
    let place = all.roster.iter().position(|&old| old == HALF).unwrap();
    assert_eq!(cut(&all.font, 0, &[place as u16]).unwrap().font, half().font);
}

#[test]
fn the_face_of_a_single_font_is_ignored() {
    assert_eq!(cut(FONT, 77, &[HALF]), Ok(half()));
}

#[test]
fn subset_is_cut_by_a_remapper() {
    let remapper = GlyphRemapper::new_from_glyphs(&[HALF]);
    assert_eq!(subset(FONT, 0, &remapper), Ok(half().font));
}

#[test]
fn refusals() {
    for (font, ids, number, error) in [
        (b"text".to_vec(), vec![], 1, Error::UnknownKind),
        (vec![], vec![], 1, Error::UnknownKind),
        (b"OTTO".to_vec(), vec![], 2, Error::Unimplemented),
        (without(b"glyf"), vec![], 2, Error::Unimplemented),
        (without(b"loca"), vec![], 3, Error::MalformedFont),
        (FONT[..200].to_vec(), vec![], 2, Error::Unimplemented),
        (FONT.to_vec(), vec![10], 3, Error::MalformedFont),
    ] {
        let refusal = cut(&font, 0, &ids).unwrap_err();
        assert_eq!((refusal.number(), Error::from(refusal)), (number, error));
        assert!(refusal.to_string().starts_with(&format!("refusal {number}: ")));
    }
}

#[test]
fn lent_memory() {
    let half = half();
    let mut scratch = vec![9; scratch_for(FONT)];
    let mut out = vec![9; half.font.len() + 3];
    let written = subset_into(FONT, 0, &[HALF], &mut scratch, &mut out);
    assert_eq!(written, Ok(Written { count: 5, length: half.font.len() }));
    assert_eq!(out[..half.font.len()], half.font);
    assert_eq!(out[half.font.len()..], [9; 3]);
    // Ten glyphs: forty numbers are used.
    assert_eq!(scratch[..5], half.roster);
    assert_eq!(scratch[5..40], [0; 35]);
    assert!(scratch[40..].iter().all(|&number| number == 9));
}

#[test]
fn lent_memory_too_short() {
    let needed = half().font.len();
    let mut out = vec![9; needed - 1];
    let short = subset_into(FONT, 0, &[HALF], &mut [0; 40], &mut out);
    assert_eq!(short, Err(Refusal::OutputTooShort { needed: needed as u64 }));
    let short = subset_into(FONT, 0, &[HALF], &mut [0; 39], &mut out);
    assert_eq!(short, Err(Refusal::ScratchTooShort));
    assert_eq!(out, vec![9; needed - 1]);
    assert_eq!(subset_into(FONT, 0, &[HALF], &mut [0; 40], &mut []).unwrap_err().number(), 6);
}

#[test]
fn a_subset_longer_than_its_font() {
    // loca is made 0, end, 0, end, ..: every second glyph has all of glyf for its outline.
    let mut font = FONT.to_vec();
    let (loca, length) = table(b"loca");
    let (_, end) = table(b"glyf");
    for entry in (2..length).step_by(4) {
        font[loca + entry..loca + entry + 2].copy_from_slice(&(end as u16 / 2).to_be_bytes());
        font[loca + entry + 2..loca + entry + 4].copy_from_slice(&[0, 0]);
    }
    let made = cut(&font, 0, &[2, 4, 6, 8]).unwrap();
    assert_eq!(made.roster, [0, 2, 4, 6, 8]);
    assert!(made.font.len() > font.len());
}

#[test]
fn remapper() {
    let mut remapper = GlyphRemapper::new();
    let new: Vec<u16> = [3, 39, 8, 3, 10, 2].map(|old| remapper.remap(old)).to_vec();
    assert_eq!(new, [1, 2, 3, 1, 4, 5]);
    assert!(remapper.remapped_gids().eq([0, 3, 39, 8, 10, 2]));
    assert_eq!((remapper.num_gids(), remapper.get(39), remapper.get(40)), (6, Some(2), None));
    let sorted = GlyphRemapper::new_from_glyphs_sorted(&[9, 4, 9, 16]);
    assert!(sorted.remapped_gids().eq([0, 4, 9, 16]));
    assert_eq!(format!("{sorted:?}"), "GlyphRemapper([0, 4, 9, 16])");
}

#[test]
#[should_panic(expected = "remapper was overflowed")]
fn a_65536th_id() {
    GlyphRemapper::new_from_glyphs(&(0..=u16::MAX).collect::<Vec<_>>());
}
