//! Steps 1 to 3: kind, directory, usable tables.
use super::rules::{Cause, Rules};
use crate::bytes::{u16_at, u32_at};

const TRUETYPE: usize = 0x0001_0000;
const TRUE: usize = 0x7472_7565;
const OTTO: usize = 0x4F54_544F;
const COLLECTION: usize = 0x7474_6366;

pub struct Face<'a> {
    pub glyf: &'a [u8],
    pub loca: &'a [u8],
    pub head: &'a [u8],
    pub hhea: &'a [u8],
    /// None only by the crate's rules.
    pub hmtx: Option<&'a [u8]>,
    /// None only by the crate's rules.
    pub maxp: Option<&'a [u8]>,
    /// hhea's count of long metrics, which one of the crate's rules reads elsewhere.
    pub old_count: usize,
    others: Vec<(&'static [u8; 4], &'a [u8])>,
}

impl<'a> Face<'a> {
    pub fn long(&self) -> bool {
        u16_at(self.head, 50) != Some(0)
    }

    /// The paper's n.
    pub fn glyphs(&self) -> usize {
        let entries = self.loca.len() / if self.long() { 4 } else { 2 };
        entries.saturating_sub(1).min(65_536)
    }

    pub fn optional(&self, tag: &[u8; 4]) -> Option<&'a [u8]> {
        self.others.iter().find(|(name, _)| *name == tag).map(|&(_, table)| table)
    }
}

pub fn open<'a>(font: &'a [u8], index: u32, rules: &mut Rules) -> Result<Face<'a>, u32> {
    let start = start(font, index, rules)?;
    let directory = Directory::read(font, start, rules)?;
    let usable = |tag: &[u8; 4]| directory.usable(tag);
    let glyf = usable(b"glyf").ok_or(2u32)?;
    let loca = usable(b"loca").ok_or(3u32)?;
    let head = usable(b"head").filter(|head| head.len() >= 52).ok_or(3u32)?;
    let hmtx = usable(b"hmtx");
    let mut hhea = usable(b"hhea").unwrap_or(&[]);
    let mut old_count = u16_at(hhea, 34);
    if hmtx.is_none() {
        // The crate never looks at hhea then.
        rules.differ(3, Cause::NoHmtx)?;
        (hhea, old_count) = (&[], Some(0));
    } else if (2..34).contains(&hhea.len()) {
        // The crate's skip of 34 bytes fails without moving: it reads the count at 0.
        rules.differ(3, Cause::ShortHhea)?;
        old_count = u16_at(hhea, 0);
    }
    let maxp = usable(b"maxp");
    if maxp.is_none() {
        rules.differ(3, Cause::NoMaxp)?;
    }
    if maxp.is_some_and(|maxp| maxp.len() < 6) {
        if hmtx.is_some() && old_count == Some(0) {
            // The crate comes to hmtx first.
            rules.note(Cause::TestOrder);
        }
        return Err(3);
    }
    let old_count = old_count.ok_or(3u32)?;
    let others = [b"cvt ", b"fpgm", b"prep", b"name", b"post"];
    let others = others.into_iter().filter_map(|tag| Some((tag, usable(tag)?))).collect();
    Ok(Face { glyf, loca, head, hhea, hmtx, maxp, old_count, others })
}

/// Where the face's directory starts.
fn start(font: &[u8], index: u32, rules: &mut Rules) -> Result<usize, u32> {
    match u32_at(font, 0) {
        Some(TRUETYPE | TRUE) => Ok(0),
        Some(OTTO) => rules.differ(2, Cause::OttoWithGlyf).map(|()| 0),
        Some(COLLECTION) => {
            let start = u32_at(font, 12 + 4 * index as usize).ok_or(3u32)?;
            match u32_at(font, start) {
                Some(TRUETYPE | TRUE) => Ok(start),
                Some(OTTO) => rules.differ(2, Cause::OttoWithGlyf).map(|()| start),
                _ => Err(3),
            }
        }
        _ => Err(1),
    }
}

struct Directory<'a> {
    font: &'a [u8],
    records: Vec<&'a [u8]>,
    ascending: bool,
}

impl<'a> Directory<'a> {
    fn read(font: &'a [u8], start: usize, rules: &mut Rules) -> Result<Self, u32> {
        let header = font.get(start..start + 12).ok_or(3u32)?;
        let count = u16_at(header, 4).unwrap();
        let record = |i| font.get(start + 12 + 16 * i..start + 28 + 16 * i);
        let records: Vec<_> = (0..count).map(record).collect::<Option<_>>().ok_or(3u32)?;
        let ascending = records.windows(2).all(|pair| pair[0][..4] < pair[1][..4]);
        if !ascending {
            rules.differ(3, Cause::UnsortedTags)?;
        }
        Ok(Directory { font, records, ascending })
    }

    fn usable(&self, tag: &[u8; 4]) -> Option<&'a [u8]> {
        let found = if self.ascending {
            self.records.iter().position(|record| record[..4] == tag[..])
        } else {
            // The crate's luck: the standard library's search on what isn't sorted.
            self.records.binary_search_by(|record| record[..4].cmp(tag)).ok()
        };
        let record = self.records[found?];
        let (offset, length) = (u32_at(record, 8)?, u32_at(record, 12)?);
        self.font.get(offset..offset + length)
    }
}
