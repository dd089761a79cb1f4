//! Damage to a font that was made.
use super::rng::Rng;

pub fn damage(rng: &mut Rng, font: &mut Vec<u8>) {
    for _ in 0..rng.between(1, 3) {
        match rng.below(12) {
            0 => font.truncate(rng.below(font.len() + 1)),
            1 => swap_records(rng, font),
            2 => copy_record(rng, font),
            3 => font.extend([0xAB; 5]),
            4 | 5 => set(rng, font, 12),
            6 | 7 => set(rng, font, 200),
            _ => set(rng, font, usize::MAX),
        }
    }
}

/// One of the font's first bytes becomes another.
fn set(rng: &mut Rng, font: &mut [u8], first: usize) {
    let end = first.min(font.len());
    if end == 0 {
        return;
    }
    let byte = &mut font[rng.below(end)];
    *byte = match rng.below(4) {
        0 => 0,
        1 => 0xFF,
        2 => *byte ^ 1 << rng.below(8),
        _ => rng.word() as u8,
    };
}

fn record(rng: &mut Rng, font: &[u8]) -> Option<usize> {
    let count = usize::from(*font.get(5)?);
    let at = 12 + 16 * rng.below(count.max(1));
    (at + 16 <= font.len()).then_some(at)
}

/// Two records change places, so that tags no longer ascend.
fn swap_records(rng: &mut Rng, font: &mut [u8]) {
    if let (Some(a), Some(b)) = (record(rng, font), record(rng, font)) {
        for i in 0..16 {
            font.swap(a + i, b + i);
        }
    }
}

/// A record stands twice, in place of another.
fn copy_record(rng: &mut Rng, font: &mut [u8]) {
    if let (Some(a), Some(b)) = (record(rng, font), record(rng, font)) {
        font.copy_within(a..a + 16, b);
    }
}
