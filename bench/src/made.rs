//! Fonts made for a question: one that grows, and those that ask for the most work.
use crate::fonts::{all, spread};
use oracle::bytes::{push16, set16};
use oracle::generate::build::{composite, name, post, Build};

pub struct Made {
    pub what: String,
    pub font: Vec<u8>,
    pub glyphs: usize,
    pub ids: Vec<u16>,
}

fn made(what: impl Into<String>, build: Build, glyphs: usize, ids: Vec<u16>) -> Made {
    Made { what: what.into(), font: build.font(), glyphs, ids }
}

/// All of n glyphs like a text font's: outlines of 60 to 180 bytes, every fourth one a composite of
/// two, a metric and a name for each (as far as post's indexes go).
pub fn grown(n: usize) -> Made {
    let outlines: Vec<_> = (0..n).map(outline).collect();
    let mut hhea = vec![0x22; 36];
    set16(&mut hhea, 34, n);
    let hmtx: Vec<u8> = (0..n).flat_map(|id| [2, (id % 7) as u8, 0, 1]).collect();
    let indexes: Vec<_> = (0..n).map(|id| if id < OWN { 258 + id } else { 0 }).collect();
    let names: Vec<u8> = (0..n.min(OWN)).flat_map(|id| pascal(&format!("uni{id:05}"))).collect();
    let build = Build::outlines(&outlines)
        .with(b"hhea", hhea)
        .with(b"hmtx", hmtx)
        .with(b"post", post(&indexes, &names));
    made(format!("{n} glyphs"), build, n, all(n))
}

/// The names a post table can number: its last index is 65,535.
const OWN: usize = 65_278;

fn outline(id: usize) -> Vec<u8> {
    if id % 4 == 3 {
        composite(&[(3, id - 1), (3, id - 2)], 0)
    } else {
        vec![1; 60 + 2 * (id * 7 % 61)]
    }
}

fn pascal(text: &str) -> Vec<u8> {
    [&[text.len() as u8], text.as_bytes()].concat()
}

/// What a hostile font could ask for, by table.
pub fn crafted() -> Vec<Made> {
    let mut cases = vec![];
    cases.extend(names());
    cases.extend(composites());
    cases.extend(posts());
    cases.extend(wide());
    cases
}

/// 5,460 records whose strings have one length and differ late, so that each must be compared with
/// each before it. The distinct ones may have 65,535 bytes in all.
fn names() -> Vec<Made> {
    let mut cases = vec![];
    for (length, distinct) in [(12, 5_460), (128, 511), (255, 256), (1_024, 63), (8_191, 8)] {
        // String i is the shared bytes, then i in the last two; the other records name the last
        // string again and again, which is compared with all others first.
        let mut storage = vec![];
        let mut records = vec![];
        for i in 0..distinct {
            records.push((length, storage.len()));
            storage.extend(vec![b'x'; length - 2]);
            push16(&mut storage, i);
        }
        let last = *records.last().unwrap();
        records.resize(5_460, last);
        let what =
            format!("name: 5,460 records, {distinct} strings of {length} bytes that share {}", length - 2);
        cases.push(made(what, Build::empty(1).with(b"name", name(&records, &storage)), 1, vec![]));
    }
    // As many distinct strings as there may be, in scattered order, whatever they are sorted by.
    let mut storage = vec![];
    let mut records = vec![];
    for i in 0..5_460 {
        records.push((12, storage.len()));
        storage.extend([b'x'; 10]);
        push16(&mut storage, i * 2_357 % 5_460);
    }
    let what = "name: 5,460 records, 5460 strings of 12 bytes in scattered order";
    cases.push(made(what, Build::empty(1).with(b"name", name(&records, &storage)), 1, vec![]));
    // Strings that lie over each other: the storage is one byte repeated, each string a byte longer.
    let records: Vec<_> = (0..5_460).map(|i| (i % 361, i / 361)).collect();
    let what = "name: 5,460 records, strings of 0 to 360 bytes over each other";
    cases.push(made(what, Build::empty(1).with(b"name", name(&records, &[b'x'; 400])), 1, vec![]));
    cases
}

/// Every second glyph is one and the same composite outline of many records, lying over itself.
fn composites() -> Vec<Made> {
    let mut cases = vec![];
    for (shared, records) in [(1_000, 1_000), (10_000, 100), (30_000, 100)] {
        let components: Vec<_> = (0..records).map(|k| (2, 2 * (k * 7 % shared))).collect();
        let outline = composite(&components, 0);
        let mut offsets = [0, outline.len()].repeat(shared);
        offsets.push(0);
        let ids = (0..shared).map(|id| 2 * id as u16).collect();
        let what = format!("glyf: {shared} composites share one outline of {records} records");
        cases.push(made(what, Build::over(outline, &offsets), 2 * shared, ids));
    }
    // A composite of every other glyph, its records in falling order, which turns the stack over.
    let n = 60_000;
    let records: Vec<_> = (1..n).rev().map(|id| (2, id)).collect();
    let outline = composite(&records, 0);
    let mut offsets = vec![outline.len(); n + 1];
    offsets[0] = 0;
    let what = format!("glyf: one composite of {} records, each another glyph", n - 1);
    cases.push(made(what, Build::over(outline, &offsets), n, vec![]));
    cases
}

/// Names are found by walking along them all; the scratch holds places for as many as there are
/// glyphs.
fn posts() -> Vec<Made> {
    let names = |count: usize, length: usize| -> Vec<u8> {
        (0..count).flat_map(|_| [vec![length as u8], vec![b'n'; length]].concat()).collect()
    };
    let n = OWN;
    let forward: Vec<_> = (0..n).map(|id| 258 + id).collect();
    let backward: Vec<_> = (0..n).map(|id| 258 + n - 1 - id).collect();
    let scattered: Vec<_> = (0..n).map(|id| 258 + id * 40_503 % n).collect();
    let mut cases = vec![];
    for (order, indexes) in [("in order", &forward), ("backwards", &backward), ("scattered", &scattered)] {
        let build = Build::empty(n).with(b"post", post(indexes, &names(n, 8)));
        cases.push(made(format!("post: {n} names of 8 bytes, {order}, all"), build, n, all(n)));
    }
    let build = Build::empty(n).with(b"post", post(&forward, &names(n, 8)));
    cases.push(made(format!("post: {n} names of 8 bytes, 5 ids"), build, n, spread(n, 5)));
    let build = Build::empty(n).with(b"post", post(&forward, &names(n, 255)));
    cases.push(made(format!("post: {n} names of 255 bytes, 5 ids"), build, n, spread(n, 5)));
    // Far more names than glyphs, so that not every place is held.
    for glyphs in [100, 1_000, 10_000] {
        let far: Vec<_> = (0..glyphs).map(|id| 258 + id * (n / glyphs)).collect();
        let build = Build::empty(glyphs).with(b"post", post(&far, &names(n, 1)));
        cases.push(made(format!("post: {n} names for {glyphs} glyphs, all"), build, glyphs, all(glyphs)));
    }
    // The same, but each name lies between two places that are held.
    let apart: Vec<_> = (0..1_000).map(|id| 258 + id * 40_503 % n).collect();
    let build = Build::empty(1_000).with(b"post", post(&apart, &names(n, 1)));
    cases.push(made(format!("post: {n} names for 1000 glyphs, scattered, all"), build, 1_000, all(1_000)));
    // All glyphs ask for the last name.
    let build = Build::empty(1_000).with(b"post", post(&[65_535; 1_000], &names(n, 1)));
    cases.push(made(format!("post: 1,000 glyphs ask for the last of {n} names"), build, 1_000, all(1_000)));
    cases
}

/// Many glyphs and little to keep: the scratch must be zero behind the roster, whatever is kept.
fn wide() -> Vec<Made> {
    let n = 65_535;
    let few = |ids: Vec<u16>| {
        let what = format!("scratch: {n} glyphs without names, {} ids", ids.len());
        made(what, Build::empty(n), n, ids)
    };
    vec![few(vec![]), few(spread(n, 5)), few(spread(n, 100))]
}
