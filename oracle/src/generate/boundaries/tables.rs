//! The walk, the tables' rules, and the caller's rooms.
use super::{named, simple, Case, Named, Room};
use crate::bytes::set16;
use crate::generate::build::{composite, name, post, Build};

/// Document 01's bench samples.
pub fn samples() -> Vec<Named> {
    let mut outlines = vec![vec![]; 69];
    outlines[68] = simple(12);
    let whole = Build::outlines(&outlines);
    let many = Build::outlines(&vec![simple(4); 40]);
    let mut cases = vec![
        named("260 bytes", whole.ask(&[68])),
        named("requests 3 39 8 3 10 2", many.ask(&[3, 39, 8, 3, 10, 2])),
        named("no request", many.ask(&[])),
        named("an id of n", many.ask(&[1, 40])),
        named("13 bytes, short", Build::outlines(&[vec![], simple(13)]).ask(&[1])),
    ];
    for (what, ids, components) in [
        ("5 holds 7 9", vec![5], vec![7, 9]),
        ("5 holds 7 9 7", vec![5], vec![7, 9, 7]),
        ("5 holds 9 7", vec![5, 9], vec![9, 7]),
        ("5 holds itself", vec![5], vec![5, 7]),
    ] {
        let records: Vec<_> = components.into_iter().map(|id| (0x0002, id)).collect();
        let mut outlines = vec![simple(4); 10];
        outlines[5] = composite(&records, 0);
        cases.push(named(what, Build::outlines(&outlines).ask(&ids)));
    }
    for advances in [[600u16, 500, 500, 500], [500, 500, 500, 500], [1, 2, 3, 4], [5, 5, 5, 6]] {
        let hmtx = advances.iter().flat_map(|advance| [advance.to_be_bytes(), [0, 7]].concat()).collect();
        let mut hhea = vec![0; 36];
        set16(&mut hhea, 34, 4);
        let font = Build::empty(4).with(b"hmtx", hmtx).with(b"hhea", hhea);
        cases.push(named(format!("advances {advances:?}"), font.ask(&[1, 2, 3])));
    }
    cases
}

/// Every combination of the flags that change a record's length or what follows it.
pub fn composites() -> Vec<Named> {
    let mut cases = vec![];
    for bits in 0..32 {
        let flag = |bit: usize, value: usize| if bits >> bit & 1 == 1 { value } else { 0 };
        let flags =
            0x0002 | flag(0, 0x0001) | flag(1, 0x0008) | flag(2, 0x0040) | flag(3, 0x0080) | flag(4, 0x0100);
        let one = composite(&[(flags, 1)], 5);
        // 0x0100 on a record that isn't the last keeps nothing.
        let two = composite(&[(flags, 1), (flags & !0x0100, 0)], 5);
        let cut = composite(&[(flags, 1)], 0);
        let outlines = [one, vec![], two, cut[..cut.len() - 1].to_vec()];
        let font = Build::outlines(&outlines);
        cases.push(named(format!("flags {flags:04x}"), font.ask(&[2])));
        cases.push(named(format!("flags {flags:04x}, cut"), font.ask(&[3])));
    }
    cases.extend(chains());
    for (what, outline) in [
        ("1 byte", vec![0xFF]),
        ("header of 9 bytes", vec![0xFF; 9]),
        ("header alone", vec![0xFF; 10]),
        ("a component without glyph", composite(&[(2, 3)], 0)),
        ("the last glyph as component", composite(&[(2, 2)], 0)),
    ] {
        cases.push(named(format!("outline: {what}"), Build::outlines(&[vec![], outline, vec![]]).ask(&[1])));
    }
    for offsets in [[0, 4, 2], [0, 0, 8], [0, 0, 6], [8, 8, 8]] {
        cases.push(named(
            format!("loca {offsets:?} over 6 bytes"),
            Build::over(simple(6), &offsets).ask(&[1]),
        ));
    }
    cases
}

/// Deep nesting, a ring, and more components than glyphs.
fn chains() -> Vec<Named> {
    let holds = |id: usize| composite(&[(0x0002, id)], 0);
    let ring: Vec<_> = (0..40).map(|id| holds((id + 1) % 40)).collect();
    let mut chain = ring.clone();
    chain[39] = simple(4);
    let mut fan = vec![simple(4); 40];
    fan[7] = composite(&(0..120).map(|i| (0x0002, i * 7 % 40)).collect::<Vec<_>>(), 0);
    vec![
        named("a chain of 40", Build::outlines(&chain).ask(&[])),
        named("a ring of 40", Build::outlines(&ring).ask(&[20])),
        named("120 components", Build::outlines(&fan).ask(&[7])),
    ]
}

pub fn names() -> Vec<Named> {
    let font = |records: &[(usize, usize)], storage: &[u8]| {
        Build::empty(1).with(b"name", name(records, storage)).ask(&[])
    };
    let mut cases = vec![
        named("name: equal strings", font(&[(2, 0), (2, 2), (1, 0), (2, 0)], b"abab")),
        named("name: empty at the storage's end", font(&[(0, 4), (4, 0), (0, 0)], b"abab")),
        named("name: empty past the storage's end", font(&[(0, 5)], b"abab")),
        named("name: one byte past the storage", font(&[(4, 1)], b"abab")),
        named("name: a sum of 65,536", font(&[(1, 65_535)], b"abab")),
        named("name: a sum far over 65,535", font(&[(65_535, 65_535)], b"abab")),
    ];
    // Strings that Pitavele puts into one bucket, since their first word counts as nothing there: up to
    // 12 are tried one by one, from 14 on they are sorted. Each is named twice, in scattered order.
    for count in [12, 13, 14, 15, 32, 100, 300, 2_700] {
        let word = |i: usize| [[0xEB, 0x83, 0xB5, 0x80], ((i * 7_919 % count) as u32).to_be_bytes()].concat();
        let storage: Vec<u8> = (0..count).flat_map(|i| [word(i), vec![b'x'; 8]].concat()).collect();
        let records: Vec<_> = (0..count).chain((0..count).rev()).map(|i| (16, 16 * i)).collect();
        cases.push(named(format!("name: {count} strings of one bucket"), font(&records, &storage)));
    }
    // Which records are kept: one string each, so that the storage shows them too.
    for (platform, encoding) in [(0, 9), (1, 0), (2, 1), (3, 0), (3, 1), (3, 2), (3, 10), (3, 11), (4, 0)] {
        let mut table = name(&[(1, 0); 18], b"x");
        for id in 0..18 {
            let at = 6 + 12 * id;
            (table[at + 1], table[at + 3], table[at + 7]) = (platform, encoding, id as u8);
        }
        cases.push(named(
            format!("name: platform {platform} encoding {encoding}"),
            Build::empty(1).with(b"name", table).ask(&[]),
        ));
    }
    // A string outside its storage that isn't kept harms nothing.
    let mut table = name(&[(9, 9)], b"x");
    table[7] = 1;
    cases.push(named("name: outside, not kept", Build::empty(1).with(b"name", table).ask(&[])));
    for start in [0, 6, 18, 19, 20] {
        let mut table = name(&[(0, 0)], b"x");
        set16(&mut table, 4, start);
        cases.push(named(
            format!("name: storage at {start} of 19"),
            Build::empty(1).with(b"name", table).ask(&[]),
        ));
    }
    for version in [1, 0x0100] {
        let mut table = name(&[(9, 9)], b"x");
        set16(&mut table, 0, version);
        cases.push(named(format!("name: version {version}"), Build::empty(1).with(b"name", table).ask(&[])));
    }
    cases
}

pub fn posts() -> Vec<Named> {
    let mut cases = vec![];
    let mut add = |what: &str, indexes: &[usize], names: &[u8]| {
        let font = Build::empty(4).with(b"post", post(indexes, names));
        cases.push(named(format!("post: {what}"), font.ask(&[2, 1, 3])));
    };
    add("256 to 259", &[256, 257, 258, 259], b"\x01a\x02bc");
    add("one name for all", &[258, 258, 258, 258], b"\x03abc");
    add("missing names", &[258, 300, 65_535, 259], b"\x01a");
    add("an empty name ends the list", &[258, 259, 260, 0], b"\x01a\0\x01b");
    add("a cut name ends the list", &[258, 259, 260, 0], b"\x01a\x05bcde");
    add("a name that just fits", &[258, 259, 260, 0], b"\x01a\x04bcde");
    add("a kept id without index", &[258, 259, 260], b"\x01a\x01b\x01c");
    add("more indexes than glyphs", &[258, 259, 260, 261, 262], b"\x01a\x01b\x01c");
    let long = [vec![255], vec![b'z'; 255]].concat();
    add("a name of 255 bytes", &[258, 1, 2, 258], &long);
    for version in [0x0001_0000u32, 0x0002_5000, 0x0003_0000, 0] {
        let table = version.to_be_bytes().to_vec();
        cases.push(named(
            format!("post: version {version:08x}"),
            Build::empty(1).with(b"post", table).ask(&[]),
        ));
    }
    cases
}

/// Lists of names so long that Pitavele walks along them from four places at once, and one with far more
/// names than glyphs. The names are as long as letters say, or their bytes look like lengths, so that
/// walks from guessed places miss each other.
pub fn long_posts() -> Vec<Named> {
    let names = |count: usize, first: u8, kinds: usize| -> Vec<Vec<u8>> {
        let byte = |i: usize| first + (i % kinds) as u8;
        (0..count).map(|i| (0..1 + i * 7 % 11).map(|k| byte(i + k)).collect()).collect()
    };
    let mut empty = names(800, b'a', 26);
    empty[700] = vec![];
    let lists = [
        ("letters", names(800, b'a', 26)),
        ("low bytes", names(800, 1, 9)),
        ("names of one byte", vec![vec![b'n']; 2_000]),
        ("one is empty", empty),
        ("fewer than asked for", names(600, b'a', 26)),
    ];
    let mut cases = vec![];
    for (what, list) in lists {
        let table: Vec<u8> = list.iter().flat_map(|name| [vec![name.len() as u8], name.clone()].concat()).collect();
        let indexes: Vec<_> = (0..900).map(|id| 258 + id * 37 % 800).collect();
        let build = Build::empty(900).with(b"post", post(&indexes, &table));
        for (count, step) in [(5, 179), (200, 4), (900, 1)] {
            let ids: Vec<_> = (0..count).map(|i| (i * step) as u16).collect();
            cases.push(named(format!("post: long list, {what}, {count} ids"), build.ask(&ids)));
        }
    }
    let indexes: Vec<_> = (0..20).map(|id| 258 + id * 149).collect();
    let build = Build::empty(20).with(b"post", post(&indexes, &b"\x01n".repeat(3_000)));
    cases.push(named("post: 3,000 names for 20 glyphs", build.ask(&[19, 3, 7])));
    cases
}

pub fn rooms() -> Vec<Named> {
    let rooms = [Room::Empty, Room::OneShort, Room::Exact, Room::Larger(1), Room::Larger(100)];
    let font = Build::outlines(&[simple(3), composite(&[(2, 2)], 0), simple(5)]);
    let all = rooms.iter().flat_map(|&scratch| rooms.iter().map(move |&out| (scratch, out)));
    let mut cases: Vec<_> = all
        .map(|(scratch, out)| {
            named(format!("scratch {scratch:?}, output {out:?}"), Case { scratch, out, ..font.ask(&[1]) })
        })
        .collect();
    // No glyph: no scratch is needed, and the walk refuses.
    cases.push(named("no glyph", Case { scratch: Room::Exact, ..Build::empty(0).ask(&[]) }));
    cases
}
