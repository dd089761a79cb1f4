//! Steps 1 to 3: kinds, collections, records, and the length of each table.
use super::{named, simple, Case, Named};
use crate::bytes::{push32, set16};
use crate::generate::build::{name, post, Build};

pub fn kinds() -> Vec<Named> {
    let mut cases = vec![];
    for length in 0..=12 {
        let mut case = Build::empty(1).ask(&[]);
        case.font.truncate(length);
        cases.push(named(format!("{length} bytes"), case));
    }
    for kind in [0x7472_7565u32, 0x4F54_544F, 0x7474_6366, 0x0001_0001, 0x774F_4646] {
        let mut case = Build::empty(1).ask(&[]);
        case.font[..4].copy_from_slice(&kind.to_be_bytes());
        case.index = 7;
        cases.push(named(format!("kind {kind:08x}"), case));
    }
    for (from, to) in [(1, 2), (2, 1), (7, 6), (6, 7)] {
        let mut case = Build::empty(1).with(b"yyyy", vec![]).with(b"zzzz", vec![]).ask(&[]);
        case.font.copy_within(12 + 16 * from..28 + 16 * from, 12 + 16 * to);
        cases.push(named(format!("record {from} again at {to}"), case));
    }
    cases
}

/// A collection of one face behind its header, asked for at its edges.
pub fn collections() -> Vec<Named> {
    let mut cases = vec![];
    for (what, start, index) in [
        ("first", 16, 0),
        ("second", 16, 1),
        ("far", 16, u32::MAX),
        ("itself", 0, 0),
        ("past the file", 0xFFFF_FFFF, 0),
    ] {
        let mut case = Build::empty(2).ask(&[1]);
        let mut font = b"ttcf\0\x01\0\0\0\0\0\x01".to_vec();
        push32(&mut font, start);
        font.extend(&case.font);
        // Table offsets count from the file's start.
        for record in 0..6 {
            let at = 16 + 12 + 16 * record + 8;
            let offset = u32::from_be_bytes(font[at..at + 4].try_into().unwrap()) + 16;
            font[at..at + 4].copy_from_slice(&offset.to_be_bytes());
        }
        case.font = font;
        case.index = index;
        cases.push(named(format!("collection, {what}"), case));
    }
    let header = b"ttcf\0\x01\0\0\0\0\0\x01".to_vec();
    for length in 12..=16 {
        let mut font = header.clone();
        font.resize(length, 0);
        cases.push(named(format!("collection of {length} bytes"), Case { font, ..Build::empty(1).ask(&[]) }));
    }
    cases
}

/// Each table a byte too short, just long enough, and longer.
pub fn lengths() -> Vec<Named> {
    let base = Build::outlines(&[simple(4), simple(6)]);
    let mut cases = vec![];
    let mut vary = |tag: &[u8; 4], table: Vec<u8>, lengths: std::ops::RangeInclusive<usize>| {
        for length in lengths {
            let mut table = table.clone();
            table.resize(length, 0x55);
            let tag_name = String::from_utf8_lossy(tag);
            cases.push(named(format!("{tag_name} of {length}"), base.clone().with(tag, table).ask(&[1])));
        }
    };
    vary(b"head", vec![0; 52], 49..=56);
    let mut hhea = vec![0; 36];
    (hhea[1], hhea[35]) = (1, 1);
    vary(b"hhea", hhea, 0..=39);
    vary(b"maxp", vec![], 3..=9);
    vary(b"hmtx", vec![1; 6], 0..=8);
    vary(b"loca", vec![0, 0, 0, 2, 0, 5], 0..=8);
    vary(b"glyf", simple(10), 8..=12);
    vary(b"name", name(&[(2, 0)], b"ab"), 0..=22);
    vary(b"post", post(&[258, 0], b"\x02ab"), 0..=43);
    vary(b"cvt ", vec![], 0..=5);
    for tag in [b"glyf", b"loca", b"head", b"hhea", b"hmtx", b"maxp"] {
        cases
            .push(named(format!("no {}", String::from_utf8_lossy(tag)), base.clone().without(tag).ask(&[1])));
    }
    for count in [0, 1, 2, 3, 0xFFFF] {
        let mut hhea = vec![0; 36];
        set16(&mut hhea, 34, count);
        cases.push(named(format!("hhea's count {count}"), base.clone().with(b"hhea", hhea).ask(&[1])));
    }
    cases
}
