//! One face: its kind word and its tables. Most are fit to be cut; each rule of the paper is
//! broken now and then.
use super::rng::Rng;
use super::{glyphs, name, post};
use crate::bytes::set16;

pub type Table = ([u8; 4], Vec<u8>);

pub struct Face {
    pub kind: u32,
    pub tables: Vec<Table>,
    pub glyphs: usize,
}

impl Face {
    pub fn random(rng: &mut Rng) -> Face {
        let kind = match rng.below(60) {
            0 => rng.pick(&[0x4F54_544F, 0x7474_6366, 0x774F_4646, 0, 0x0001_0001]),
            1..=20 => 0x7472_7565,
            _ => 0x0001_0000,
        };
        let outlines = glyphs::random(rng);
        let n = outlines.count;
        let mut tables = vec![
            (*b"glyf", outlines.glyf),
            (*b"loca", outlines.loca),
            (*b"head", head(rng, outlines.long)),
            (*b"maxp", maxp(rng)),
        ];
        let count = long_metrics(rng, n);
        tables.push((*b"hhea", hhea(rng, count)));
        tables.push((*b"hmtx", hmtx(rng, n, count)));
        if rng.once_in(2) {
            tables.push((*b"name", name::random(rng)));
        }
        if rng.once_in(2) {
            tables.push((*b"post", post::random(rng, n)));
        }
        for tag in [*b"cvt ", *b"fpgm", *b"prep"] {
            if rng.once_in(3) {
                let length = rng.below(10);
                tables.push((tag, rng.bytes(length)));
            }
        }
        // Tables that are left behind, before, among and after the eleven.
        for tag in [*b"CFF ", *b"CFF2", *b"OS/2", *b"gasp", *b"vmtx"] {
            if rng.once_in(8) {
                let length = rng.below(6);
                tables.push((tag, rng.bytes(length)));
            }
        }
        if rng.once_in(30) {
            let lost = rng.below(tables.len());
            tables.remove(lost);
        }
        tables.sort();
        Face { kind, tables, glyphs: n }
    }
}

fn head(rng: &mut Rng, long: bool) -> Vec<u8> {
    let length = match rng.below(40) {
        0 => rng.pick(&[0, 49, 50, 51]),
        1..=4 => rng.between(52, 61),
        _ => 54,
    };
    let mut head = rng.bytes(length);
    if length >= 52 {
        // Any word but zero means long.
        let width = if long { rng.pick(&[1, 1, 1, 2, 0x0100, 0xFFFF]) } else { 0 };
        set16(&mut head, 50, width);
    }
    head
}

fn maxp(rng: &mut Rng) -> Vec<u8> {
    let length = if rng.once_in(40) { rng.below(6) } else { rng.pick(&[6, 7, 32, 32, 33]) };
    rng.bytes(length)
}

fn long_metrics(rng: &mut Rng, n: usize) -> usize {
    match rng.below(40) {
        0 => 0,
        1 => n + rng.between(1, 3),
        2 => 0xFFFF,
        3..=10 => 1,
        11..=20 => n.max(1),
        _ => rng.between(1, n.max(1)),
    }
}

fn hhea(rng: &mut Rng, count: usize) -> Vec<u8> {
    let length = match rng.below(40) {
        0 => rng.below(36),
        1..=4 => rng.between(37, 48),
        _ => 36,
    };
    let mut hhea = rng.bytes(length);
    if length >= 36 {
        set16(&mut hhea, 34, count);
    } else if length >= 2 && rng.once_in(2) {
        // Where the crate reads the count of a short hhea.
        set16(&mut hhea, 0, count);
    }
    hhea
}

fn hmtx(rng: &mut Rng, n: usize, count: usize) -> Vec<u8> {
    let count = count.min(n + 4);
    let mut hmtx = vec![];
    for _ in 0..count {
        // Few different advances, so that equal ones stand side by side.
        hmtx.extend([2, rng.pick(&[0, 0, 0, 1, 2])]);
        hmtx.extend(rng.bytes(2));
    }
    hmtx.extend(rng.bytes(2 * n.saturating_sub(count)));
    match rng.below(40) {
        0 => hmtx.truncate(hmtx.len().saturating_sub(rng.between(1, 4))),
        1 => hmtx.extend([7; 3]),
        _ => {}
    }
    hmtx
}
