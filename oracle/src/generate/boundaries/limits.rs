//! The largest numbers: what just fits, and the next.
use super::{named, simple, Case, Named, Room};
use crate::generate::build::{composite, name, post, Build};
use crate::paper::{self, Request, Rules};

pub fn large() -> Vec<Named> {
    [name_counts(), glyph_counts(), post_indexes(), file_lengths()].concat()
}

/// Sizes around 131,070: outlines that lie over each other at every second id.
pub fn loca_widths() -> Vec<Named> {
    let mut cases = vec![];
    for (outlines, length) in [(5, 26_214), (8, 16_384), (8, 16_383), (2, 65_535), (2, 65_534), (10, 13_107)]
    {
        let mut offsets = [0, length].repeat(outlines);
        offsets.push(0);
        let ids: Vec<u16> = (0..outlines as u16).map(|i| 2 * i).collect();
        cases.push(named(
            format!("{outlines} outlines of {length}"),
            Build::over(simple(length), &offsets).ask(&ids),
        ));
    }
    cases
}

/// Storage of 65,535 and 65,536 bytes, and sums of offset and length there.
pub fn name_storages() -> Vec<Named> {
    let storage: Vec<u8> = (0..20_000usize).map(|i| (i / 7 % 251 + i % 7) as u8).collect();
    let mut cases = vec![];
    for last in [5_535, 5_536] {
        let table = name(&[(20_000, 0), (20_000, 0), (19_999, 1), (19_999, 0), (2, 0), (last, 9)], &storage);
        cases.push(named(
            format!("name: distinct strings of {}", 60_000 + last),
            Build::empty(1).with(b"name", table).ask(&[]),
        ));
    }
    cases
}

/// 5,460 and 5,461 records; and a storage longer than an offset and a length can name.
fn name_counts() -> Vec<Named> {
    let mut cases = vec![];
    for count in [5_459, 5_460, 5_461, 5_462] {
        let table = name(&vec![(1, 0); count], b"x");
        cases.push(named(format!("name: {count} records"), Build::empty(1).with(b"name", table).ask(&[])));
    }
    for (length, offset) in [(65_535, 0), (1, 65_534), (1, 65_535), (65_535, 1), (0, 65_535)] {
        let table = name(&[(length, offset)], &vec![3; 70_000]);
        cases.push(named(
            format!("name: {length} at {offset} of 70,000"),
            Build::empty(1).with(b"name", table).ask(&[]),
        ));
    }
    // A range outside comes before either 5.
    let table = name(&[vec![(1, 0); 5_461], vec![(2, 0xFFFF)]].concat(), b"x");
    cases.push(named("name: 5,462 records, the last outside", Build::empty(1).with(b"name", table).ask(&[])));
    cases
}

/// The 65,535th and the 65,536th glyph, requested or brought in by a component.
fn glyph_counts() -> Vec<Named> {
    let below = |end: u32| (0..end).map(|id| id as u16).collect::<Vec<_>>();
    let mut cases = vec![];
    for n in [65_534, 65_535, 65_536, 65_537, 70_000] {
        let font = Build::empty(n);
        for requests in [65_535, 65_536] {
            cases.push(named(format!("{n} glyphs, {requests} requests"), font.ask(&below(requests))));
        }
        cases.push(named(format!("{n} glyphs, the last"), font.ask(&[65_535])));
    }
    for (what, first) in [("fits", 65_534), ("is the 65,536th", 65_535)] {
        // Glyph 0 holds 65,535; all below `first` are requested. A record that is cut is 3 before
        // its component can be 7; the crate numbers the component first.
        for (state, length) in [("whole", 16), ("cut", 15)] {
            let outline = composite(&[(2, 65_535)], 0)[..length].to_vec();
            let mut offsets = vec![length; 65_537];
            offsets[0] = 0;
            let font = Build::over(outline, &offsets);
            cases.push(named(format!("a component {what}, its record {state}"), font.ask(&below(first))));
        }
    }
    cases
}

/// A new index of 65,535 and of 65,536, and a missing index after it.
fn post_indexes() -> Vec<Named> {
    let mut cases = vec![];
    for (own, indexes) in [(65_278, 65_300), (65_279, 65_300), (65_279, 65_279)] {
        let font = Build::empty(65_300).with(b"post", post(&vec![258; indexes], b"\x01a"));
        let mut ids: Vec<u16> = (0..own as u16).collect();
        if indexes == own {
            ids.push(own as u16);
        }
        cases.push(named(format!("post: {own} own names, {indexes} indexes"), font.ask(&ids)));
    }
    cases
}

/// The longest file and the next one. Neither is written: the output is too short for the first.
fn file_lengths() -> Vec<Named> {
    let font = |filler: usize| huge(131_060).with(b"cvt ", vec![0; filler]);
    let case = |filler: usize| Case { out: Room::Empty, ..font(filler).ask(&every_second()) };
    let ids = every_second();
    let bytes = font(0).font();
    let request = Request { font: &bytes, index: 0, ids: &ids };
    let length = paper::judge(&request, Rules::paper()).outcome.map(|plan| plan.length());
    let filler = 4_294_967_292 - length.expect("the filler is what is missing");
    vec![
        named("a file of 4,294,967,292 bytes", case(filler)),
        named("a file of 4,294,967,296 bytes", case(filler + 1)),
    ]
}

/// 32,768 outlines of this length that lie over each other.
pub fn huge(length: usize) -> Build {
    let mut offsets = [0, length].repeat(32_768);
    offsets.push(0);
    Build::over(simple(length), &offsets)
}

pub fn every_second() -> Vec<u16> {
    (0..32_768u32).map(|i| (2 * i) as u16).collect()
}
