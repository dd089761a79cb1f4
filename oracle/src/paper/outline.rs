//! One outline.
use super::face::Face;
use crate::bytes::{u16_at, u32_at};

const WORDS: usize = 0x0001;
const SCALE: usize = 0x0008;
const MORE: usize = 0x0020;
const TWO_SCALES: usize = 0x0040;
const MATRIX: usize = 0x0080;
const INSTRUCTIONS: usize = 0x0100;

pub enum Outline<'a> {
    Empty,
    Simple(&'a [u8]),
    Composite {
        /// The bytes kept, old ids still in them.
        kept: &'a [u8],
        /// Each component's id, and where in `kept` it stands.
        components: Vec<(usize, u16)>,
    },
}

impl<'a> Outline<'a> {
    /// The outline of an id below n.
    pub fn read(face: &Face<'a>, id: u16) -> Result<Self, u32> {
        let bytes = range(face, id).and_then(|(from, to)| face.glyf.get(from..to)).ok_or(3u32)?;
        if bytes.is_empty() {
            return Ok(Outline::Empty);
        }
        let negative = u16_at(bytes, 0).ok_or(3u32)? >= 0x8000;
        if negative {
            composite(bytes, face.glyphs()).ok_or(3)
        } else {
            Ok(Outline::Simple(bytes))
        }
    }
}

fn range(face: &Face, id: u16) -> Option<(usize, usize)> {
    let offset = |entry: usize| {
        if face.long() {
            u32_at(face.loca, 4 * entry)
        } else {
            Some(2 * u16_at(face.loca, 2 * entry)?)
        }
    };
    Some((offset(id.into())?, offset(usize::from(id) + 1)?))
}

fn composite(bytes: &[u8], n: usize) -> Option<Outline<'_>> {
    let mut components = vec![];
    let mut at = 10;
    loop {
        let flags = u16_at(bytes, at)?;
        let id = u16_at(bytes, at + 2)?;
        components.push((at + 2, id as u16));
        at += 4 + arguments(flags);
        if at > bytes.len() || id >= n {
            return None;
        }
        if flags & MORE == 0 {
            let end = if flags & INSTRUCTIONS != 0 { bytes.len() } else { at };
            return Some(Outline::Composite { kept: &bytes[..end], components });
        }
    }
}

/// The bytes of a record after its flags and id.
fn arguments(flags: usize) -> usize {
    let words = if flags & WORDS != 0 { 4 } else { 2 };
    let transform = if flags & SCALE != 0 {
        2
    } else if flags & TWO_SCALES != 0 {
        4
    } else if flags & MATRIX != 0 {
        8
    } else {
        0
    };
    words + transform
}
