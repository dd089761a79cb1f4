//! Post tables.
use super::rng::Rng;
use crate::bytes::{push16, push32};

pub fn random(rng: &mut Rng, glyphs: usize) -> Vec<u8> {
    let version = rng.pick(&[
        0x0001_0000,
        0x0002_0000,
        0x0002_0000,
        0x0002_0000,
        0x0002_0000,
        0x0002_5000,
        0x0003_0000,
    ]);
    let mut table = vec![];
    push32(&mut table, version);
    table.extend(rng.bytes(28));
    if version != 0x0002_0000 {
        if rng.once_in(8) {
            table.truncate(rng.below(33));
        }
        return table;
    }
    let count = match rng.below(30) {
        0 => rng.below(glyphs + 1),
        1 => glyphs + rng.between(1, 3),
        _ => glyphs,
    };
    let names = rng.below(count + 2);
    push16(&mut table, count);
    for _ in 0..count {
        let index = match rng.below(8) {
            0 => rng.pick(&[0, 256, 257, 258, 259, 0xFFFF]),
            1 | 2 => rng.below(258),
            _ => 258 + rng.below(names + 2),
        };
        push16(&mut table, index);
    }
    for _ in 0..names {
        // An empty name ends the list.
        let length = if rng.once_in(20) { 0 } else { rng.between(1, 6) };
        table.push(length as u8);
        table.extend(rng.bytes(length));
    }
    if rng.once_in(15) {
        // The last name is cut, or the index array, or the header.
        let cut = if rng.once_in(2) { rng.between(1, 3) } else { rng.below(table.len() + 1) };
        table.truncate(table.len().saturating_sub(cut));
    }
    table
}
