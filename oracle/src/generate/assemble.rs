//! Files from tables.
use super::face::{Face, Table};
use super::rng::Rng;
use crate::bytes::{push16, push32, set32};

/// The plainest font: one face, tables in the order of their tags, each padded to 4.
pub fn plain(tables: &[Table]) -> Vec<u8> {
    let mut tables = tables.to_vec();
    tables.sort();
    let mut font = vec![];
    push_directory(&mut font, 0x0001_0000, &tables);
    for (i, (_, table)) in tables.iter().enumerate() {
        let at = font.len();
        set32(&mut font, 12 + 16 * i + 8, at);
        font.extend(table);
        font.resize(font.len().next_multiple_of(4), 0);
    }
    font
}

/// The faces in one file: tables in any order and alignment, with bytes between and behind them,
/// ranges that lie over each other, and some that end past the file.
pub fn random(rng: &mut Rng, faces: &[Face], collection: bool) -> Vec<u8> {
    let mut font = vec![];
    if collection {
        font.extend(b"ttcf");
        push32(&mut font, rng.pick(&[0x0001_0000, 0x0002_0000]));
        // Nothing reads the count of faces.
        push32(&mut font, if rng.once_in(10) { 0 } else { faces.len() });
        font.extend(vec![0; 4 * faces.len()]);
    }
    let mut records = vec![];
    for (i, face) in faces.iter().enumerate() {
        if collection {
            font.extend(rng.bytes(if i % 2 == 0 { 0 } else { 2 }));
            let start = if rng.once_in(60) { 0 } else { font.len() };
            set32(&mut font, 12 + 4 * i, start);
        }
        let first = font.len() + 12;
        push_directory(&mut font, face.kind as usize, &face.tables);
        records.extend(face.tables.iter().enumerate().map(|(k, table)| (first + 16 * k, table)));
    }
    place_tables(rng, &mut font, records);
    font
}

fn place_tables(rng: &mut Rng, font: &mut Vec<u8>, mut records: Vec<(usize, &Table)>) {
    for i in (1..records.len()).rev() {
        records.swap(i, rng.below(i + 1));
    }
    let (aligned, tail) = (!rng.once_in(5), rng.pick(&[0, 0, 1, 4]));
    for (record, (tag, table)) in &records {
        if aligned {
            font.resize(font.len().next_multiple_of(4), 0);
        } else {
            let between = rng.below(3);
            font.extend(rng.bytes(between));
        }
        let copied_only = [b"cvt ", b"fpgm", b"prep"].contains(&tag);
        if copied_only && rng.once_in(4) && table.len() <= font.len() {
            let over = rng.below(font.len() - table.len() + 1);
            set32(font, record + 8, over);
            continue;
        }
        let at = font.len();
        set32(font, record + 8, at);
        font.extend(table);
    }
    font.extend(vec![0xEE; tail]);
    if rng.once_in(15) {
        let (record, (_, table)) = records[rng.below(records.len())];
        unusable(rng, font, record, table.len());
    }
}

/// A range that ends exactly with the file, one byte past it, or so far that a 32-bit sum wraps.
fn unusable(rng: &mut Rng, font: &mut [u8], record: usize, length: usize) {
    let end = font.len();
    let (offset, length) = match rng.below(5) {
        0 => (end, 0),
        1 => (end + 1, 0),
        2 => (end - length, length),
        3 => (end - length, length + 1),
        _ => (0xFFFF_FFFF, 0xFFFF_FFFF),
    };
    set32(font, record + 8, offset);
    set32(font, record + 12, length);
}

/// Offsets are set when the tables are placed; nothing reads the checksums or the search fields.
fn push_directory(font: &mut Vec<u8>, kind: usize, tables: &[Table]) {
    push32(font, kind);
    push16(font, tables.len());
    font.extend([0xDD; 6]);
    for (tag, table) in tables {
        font.extend(tag);
        font.extend([0xCC; 4]);
        push32(font, 0);
        push32(font, table.len());
    }
}
