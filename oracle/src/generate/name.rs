//! Name tables.
use super::build;
use super::rng::Rng;
use crate::bytes::push16;

pub fn random(rng: &mut Rng) -> Vec<u8> {
    if rng.once_in(1_000) {
        return around_65_535(rng);
    }
    let count = rng.pick(&[0, 1, 2, 3, 4, 6, 9]);
    let stored = rng.between(0, 24);
    let version = if rng.once_in(12) { rng.pick(&[1, 2, 0x0100, 0xFFFF]) } else { 0 };
    let mut table = vec![];
    push16(&mut table, version);
    push16(&mut table, count);
    let records_end = 6 + 12 * count;
    let start = match rng.below(20) {
        0 => rng.below(records_end + 1),
        1 => records_end + stored + rng.below(2),
        _ => records_end,
    };
    push16(&mut table, start);
    let storage = (records_end + stored).saturating_sub(start);
    for _ in 0..count {
        record(rng, &mut table, storage);
    }
    // Few letters, so that equal strings stand at different places.
    table.extend((0..stored).map(|_| rng.pick(b"ab")));
    if rng.once_in(25) {
        table.truncate(rng.below(table.len() + 1));
    }
    table
}

/// Distinct strings whose lengths add up to 65,535, or a few bytes more or less: the longest
/// beginnings of one storage.
fn around_65_535(rng: &mut Rng) -> Vec<u8> {
    let longest = rng.between(860, 900);
    let mut lengths: Vec<_> = (0..73).map(|less| (longest - less, 0)).collect();
    let sum: usize = lengths.iter().map(|(length, _)| length).sum();
    let mut rest = 65_535 + rng.below(3) - 1 - sum;
    while rest > 0 {
        let length = rest.min(longest - lengths.len());
        lengths.push((length, 0));
        rest -= length;
    }
    build::name(&lengths, &vec![b'x'; longest])
}

fn record(rng: &mut Rng, table: &mut Vec<u8>, storage: usize) {
    push16(table, rng.pick(&[0, 0, 3, 3, 3, 3, 1, 2, 4]));
    push16(table, rng.pick(&[0, 1, 1, 1, 10, 2, 3, 9]));
    push16(table, rng.pick(&[0, 0x0409, 0x0411]));
    push16(table, if rng.once_in(6) { rng.pick(&[10, 15, 16, 25, 256, 0xFFFF]) } else { rng.below(15) });
    let offset = rng.below(storage + 1);
    let length = rng.below((storage - offset).min(5) + 1);
    let (length, offset) = match rng.below(60) {
        0 => (storage - offset + 1, offset),
        1 => (0, storage + 1),
        2 => (0xFFFF, rng.pick(&[0, 1, 0xFFFF])),
        3..=6 => (storage - offset, offset),
        7..=9 => (0, storage),
        _ => (length, offset),
    };
    push16(table, length);
    push16(table, offset);
}
