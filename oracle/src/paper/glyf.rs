//! The new glyf and loca. Outlines stay parts of the font until they are written, so that a file
//! of four gigabytes can be measured.
use super::face::Face;
use super::outline::Outline;
use crate::bytes::{push16, set16};
use std::borrow::Cow;

#[derive(Default)]
pub struct Glyphs<'a> {
    entries: Vec<Cow<'a, [u8]>>,
}

impl<'a> Glyphs<'a> {
    /// The roster's outlines are known to be readable.
    pub fn of(face: &Face<'a>, roster: &[u16]) -> Self {
        let mut new_number = vec![0; face.glyphs()];
        for (number, &id) in roster.iter().enumerate() {
            new_number[usize::from(id)] = number;
        }
        let entry = |&id: &u16| match Outline::read(face, id).unwrap() {
            Outline::Empty => Cow::Borrowed(&[][..]),
            Outline::Simple(bytes) => Cow::Borrowed(bytes),
            Outline::Composite { kept, components } => {
                let mut bytes = kept.to_vec();
                for (at, id) in components {
                    set16(&mut bytes, at, new_number[usize::from(id)]);
                }
                Cow::Owned(bytes)
            }
        };
        Glyphs { entries: roster.iter().map(entry).collect() }
    }

    pub fn long(&self) -> bool {
        self.entries.iter().map(|entry| entry.len().next_multiple_of(2)).sum::<usize>() > 131_070
    }

    pub fn lengths(&self) -> (usize, usize) {
        let long = self.long();
        let unit = if long { 1 } else { 2 };
        let glyf = self.entries.iter().map(|entry| entry.len().next_multiple_of(unit)).sum();
        (glyf, (self.entries.len() + 1) * if long { 4 } else { 2 })
    }

    pub fn write(&self) -> (Vec<u8>, Vec<u8>) {
        let long = self.long();
        let (mut glyf, mut loca) = (vec![], vec![]);
        for entry in &self.entries {
            push_offset(&mut loca, long, glyf.len());
            glyf.extend_from_slice(entry);
            glyf.resize(if long { glyf.len() } else { glyf.len().next_multiple_of(2) }, 0);
        }
        push_offset(&mut loca, long, glyf.len());
        (glyf, loca)
    }
}

/// By the crate's rules the glyf of a file too long has offsets cut to 32 bits.
fn push_offset(loca: &mut Vec<u8>, long: bool, offset: usize) {
    if long {
        loca.extend((offset as u32).to_be_bytes());
    } else {
        push16(loca, offset / 2);
    }
}
