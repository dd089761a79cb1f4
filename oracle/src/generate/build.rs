//! Fonts made by hand, table by table.
use super::{assemble, Case, Room};
use crate::bytes::{push16, push32, set16};

/// A font fit to be cut; each part can be replaced.
#[derive(Clone)]
pub struct Build {
    tables: Vec<([u8; 4], Vec<u8>)>,
}

impl Build {
    /// The six tables the paper asks for, around these outlines.
    pub fn outlines(outlines: &[Vec<u8>]) -> Build {
        let mut offsets = vec![0];
        for outline in outlines {
            offsets.push(offsets.last().unwrap() + outline.len());
        }
        Build::over(outlines.concat(), &offsets)
    }

    /// The same with loca's offsets given, so that outlines may lie over each other. loca is long
    /// if an offset is odd or too large for the short form.
    pub fn over(glyf: Vec<u8>, offsets: &[usize]) -> Build {
        let long = offsets.iter().any(|offset| offset % 2 == 1 || *offset > 131_070);
        let mut loca = vec![];
        for &offset in offsets {
            if long {
                push32(&mut loca, offset);
            } else {
                push16(&mut loca, offset / 2);
            }
        }
        let n = offsets.len() - 1;
        let mut head = vec![0x11; 54];
        set16(&mut head, 50, long.into());
        let mut hhea = vec![0x22; 36];
        set16(&mut hhea, 34, 1);
        // One long metric, then bearings.
        let hmtx = vec![2; 4 + 2 * n.saturating_sub(1)];
        let base = Build { tables: vec![] };
        base.with(b"glyf", glyf)
            .with(b"loca", loca)
            .with(b"head", head)
            .with(b"hhea", hhea)
            .with(b"hmtx", hmtx)
            .with(b"maxp", vec![0x33; 32])
    }

    /// n glyphs without outline.
    pub fn empty(n: usize) -> Build {
        Build::over(vec![], &vec![0; n + 1])
    }

    pub fn with(mut self, tag: &[u8; 4], table: Vec<u8>) -> Build {
        self = self.without(tag);
        self.tables.push((*tag, table));
        self
    }

    pub fn without(mut self, tag: &[u8; 4]) -> Build {
        self.tables.retain(|(name, _)| name != tag);
        self
    }

    pub fn font(&self) -> Vec<u8> {
        assemble::plain(&self.tables)
    }

    pub fn ask(&self, ids: &[u16]) -> Case {
        Case {
            font: self.font(),
            index: 0,
            ids: ids.to_vec(),
            scratch: Room::Larger(2),
            out: Room::Larger(3),
        }
    }
}

/// A composite outline of these records, with bytes behind them; each argument byte is 5.
pub fn composite(records: &[(usize, usize)], behind: usize) -> Vec<u8> {
    let mut bytes = vec![0xFF; 10];
    for (i, &(flags, id)) in records.iter().enumerate() {
        let more = if i + 1 < records.len() { 0x0020 } else { 0 };
        push16(&mut bytes, flags | more);
        push16(&mut bytes, id);
        let words = if flags & 0x0001 != 0 { 4 } else { 2 };
        let scales = [(0x0008, 2), (0x0040, 4), (0x0080, 8)];
        let scale = scales.iter().find(|(flag, _)| flags & flag != 0).map_or(0, |(_, length)| *length);
        bytes.extend(vec![5; words + scale]);
    }
    bytes.extend(vec![9; behind]);
    bytes
}

/// A name table of version 0: records of (length, offset), all kept, then the storage.
pub fn name(records: &[(usize, usize)], storage: &[u8]) -> Vec<u8> {
    let mut table = vec![];
    push16(&mut table, 0);
    push16(&mut table, records.len());
    // The header has room for no more; a larger table keeps its storage among the records.
    push16(&mut table, (6 + 12 * records.len()).min(65_535));
    for &(length, offset) in records {
        table.extend([0, 3, 0, 1, 4, 9, 0, 1]);
        push16(&mut table, length);
        push16(&mut table, offset);
    }
    table.extend(storage);
    table
}

/// A post table of version 2.
pub fn post(indexes: &[usize], names: &[u8]) -> Vec<u8> {
    let mut table = vec![0, 2, 0, 0];
    table.extend([0x44; 28]);
    push16(&mut table, indexes.len());
    for &index in indexes {
        push16(&mut table, index);
    }
    table.extend(names);
    table
}
