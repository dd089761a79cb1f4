//! Cases: every kind of small font that document 01 speaks of, by seed; damaged copies of them;
//! and fixed ones at the boundaries.
mod assemble;
pub mod boundaries;
pub mod build;
mod damage;
mod face;
mod glyphs;
mod name;
mod post;
mod rng;

pub use face::Face;
pub use rng::Rng;

#[derive(Clone)]
pub struct Case {
    pub font: Vec<u8>,
    pub index: u32,
    pub ids: Vec<u16>,
    pub scratch: Room,
    pub out: Room,
}

/// A lent slice's length, against what the call needs.
#[derive(Clone, Copy, Debug, PartialEq, Eq)]
pub enum Room {
    Empty,
    OneShort,
    Exact,
    Larger(usize),
}

impl Room {
    pub fn length(self, need: usize) -> usize {
        match self {
            Room::Empty => 0,
            Room::OneShort => need.saturating_sub(1),
            Room::Exact => need,
            Room::Larger(by) => need + by,
        }
    }
}

pub fn case(seed: u64, number: u64) -> Case {
    let rng = &mut Rng::new(seed, number);
    let collection = rng.once_in(6);
    let faces: Vec<Face> =
        (0..if collection { rng.between(1, 3) } else { 1 }).map(|_| Face::random(rng)).collect();
    let chosen = rng.below(faces.len());
    let ids = list(rng, faces[chosen].glyphs);
    let mut font = assemble::random(rng, &faces, collection);
    if rng.once_in(4) {
        damage::damage(rng, &mut font);
    }
    let index = if collection && !rng.once_in(40) { chosen as u32 } else { rng.pick(&[0, 1, 3, u32::MAX]) };
    let (scratch, out) = (room(rng), room(rng));
    Case { font, index, ids, scratch, out }
}

/// A request list: none, all, all reversed, a few with repeats; at times an id without a glyph.
fn list(rng: &mut Rng, glyphs: usize) -> Vec<u16> {
    let glyphs = glyphs.max(1);
    let mut ids: Vec<u16> = match rng.below(6) {
        0 => vec![],
        1 => (0..glyphs as u16).collect(),
        2 => (0..glyphs as u16).rev().collect(),
        _ => (0..rng.below(2 * glyphs + 1)).map(|_| rng.below(glyphs) as u16).collect(),
    };
    if rng.once_in(40) {
        let id = rng.pick(&[glyphs, glyphs + 1, 0xFFFF]);
        ids.insert(rng.below(ids.len() + 1), id as u16);
    }
    ids
}

fn room(rng: &mut Rng) -> Room {
    match rng.below(12) {
        0 => Room::OneShort,
        1 if rng.once_in(4) => Room::Empty,
        2..=5 => Room::Larger(rng.between(1, 40)),
        _ => Room::Exact,
    }
}
