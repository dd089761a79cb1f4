//! Outlines and loca.
use super::rng::Rng;
use crate::bytes::{push16, push32};

pub struct Outlines {
    pub glyf: Vec<u8>,
    pub loca: Vec<u8>,
    pub long: bool,
    pub count: usize,
}

pub fn random(rng: &mut Rng) -> Outlines {
    let long = rng.once_in(2);
    let count = match rng.below(30) {
        0 => rng.below(2),
        1 => rng.between(13, 60),
        _ => rng.between(1, 12),
    };
    // Now and then outlines so long that the new loca may need its long form.
    let large = rng.once_in(1_000);
    let mut glyf = vec![];
    let mut offsets = vec![0];
    for _ in 0..count {
        glyf.extend(outline(rng, count));
        if large && long {
            glyf.extend(vec![7; rng.between(20_000, 60_000)]);
        }
        if !long && glyf.len() % 2 == 1 {
            glyf.push(rng.word() as u8);
        }
        offsets.push(glyf.len());
        if rng.once_in(80) {
            // The glyph before this entry descends; those after it lie over earlier ones.
            let back = rng.below(offsets.len());
            *offsets.last_mut().unwrap() = offsets[back];
        }
    }
    match rng.below(40) {
        0 => glyf.truncate(glyf.len().saturating_sub(rng.between(1, 3))),
        1 => glyf.extend([1, 2, 3]),
        _ => {}
    }
    Outlines { loca: loca(rng, &offsets, long), glyf, long, count }
}

fn loca(rng: &mut Rng, offsets: &[usize], long: bool) -> Vec<u8> {
    let mut loca = vec![];
    for &offset in offsets {
        if long {
            push32(&mut loca, offset);
        } else {
            push16(&mut loca, offset / 2);
        }
    }
    match rng.below(40) {
        0 => loca.truncate(loca.len().saturating_sub(rng.between(1, 5))),
        1 => loca.extend([0; 3]),
        2 => loca.extend([0; 4]),
        _ => {}
    }
    loca
}

fn outline(rng: &mut Rng, count: usize) -> Vec<u8> {
    match rng.below(20) {
        0..=2 => vec![],
        3..=10 => simple(rng),
        11 if rng.once_in(12) => broken(rng),
        _ => composite(rng, count),
    }
}

fn simple(rng: &mut Rng) -> Vec<u8> {
    let mut bytes = vec![rng.pick(&[0, 0, 0, 1, 0x7F])];
    let more = rng.between(1, 24);
    bytes.extend(rng.bytes(more));
    bytes
}

/// One byte, or a composite with its header cut.
fn broken(rng: &mut Rng) -> Vec<u8> {
    let length = rng.between(1, 9);
    vec![0xFF; length]
}

fn composite(rng: &mut Rng, count: usize) -> Vec<u8> {
    let mut bytes = vec![rng.pick(&[0xFF, 0xFF, 0x80, 0xC3])];
    bytes.extend(rng.bytes(9));
    let records = rng.pick(&[1, 1, 2, 2, 3, 5]);
    let mut last = 0;
    for record in 0..records {
        // Every combination of the flags that count, and the others at random.
        let mut flags = rng.below(0x1_0000) & !0x0020;
        if record + 1 < records {
            flags |= 0x0020;
        }
        push16(&mut bytes, flags);
        // The same component again, or any; now and then one without a glyph.
        let id = match rng.below(200) {
            0 => count + rng.below(2),
            1..=40 => last,
            _ => rng.below(count),
        };
        last = id;
        push16(&mut bytes, id);
        let words = if flags & 0x0001 != 0 { 4 } else { 2 };
        let scales = match flags & 0x00C8 {
            bits if bits & 0x0008 != 0 => 2,
            bits if bits & 0x0040 != 0 => 4,
            bits if bits & 0x0080 != 0 => 8,
            _ => 0,
        };
        bytes.extend(rng.bytes(words + scales));
    }
    if rng.once_in(2) {
        let more = rng.between(1, 6);
        bytes.extend(rng.bytes(more));
    }
    if rng.once_in(150) {
        bytes.truncate(bytes.len() - rng.between(1, 4));
    }
    bytes
}
