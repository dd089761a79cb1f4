//! The file: directory, tables padded to 4, checksums, head's adjustment.
use super::glyf::Glyphs;
use crate::bytes::{push16, push32};

#[derive(Default)]
pub struct Tables<'a> {
    ready: Vec<([u8; 4], Vec<u8>)>,
    pub head: Vec<u8>,
    pub glyphs: Glyphs<'a>,
}

impl Tables<'_> {
    pub fn add(&mut self, tag: &[u8; 4], table: Vec<u8>) {
        self.ready.push((*tag, table));
    }

    pub fn length(&self) -> usize {
        let (glyf, loca) = self.glyphs.lengths();
        let ready = self.ready.iter().map(|(_, table)| table.len());
        let all = ready.chain([self.head.len(), glyf, loca]);
        all.map(|length| 16 + length.next_multiple_of(4)).sum::<usize>() + 12
    }

    pub fn write(&self) -> Vec<u8> {
        let (glyf, loca) = self.glyphs.write();
        let mut head = self.head.clone();
        head[8..12].fill(0);
        head[50..52].copy_from_slice(&[0, self.glyphs.long().into()]);
        let ready = self.ready.iter().map(|(tag, table)| (*tag, &table[..]));
        let mut tables: Vec<_> =
            ready.chain([(*b"glyf", &glyf[..]), (*b"loca", &loca), (*b"head", &head)]).collect();
        tables.sort();

        let mut file = directory(&tables);
        let mut adjustment = 0;
        for (tag, table) in tables {
            if &tag == b"head" {
                adjustment = file.len() + 8;
            }
            file.extend(table);
            file.resize(file.len().next_multiple_of(4), 0);
        }
        let value = 0xB1B0_AFBA_u32.wrapping_sub(checksum(&file));
        file[adjustment..adjustment + 4].copy_from_slice(&value.to_be_bytes());
        file
    }
}

fn directory(tables: &[([u8; 4], &[u8])]) -> Vec<u8> {
    let count = tables.len();
    let selector = count.ilog2() as usize;
    let range = 16 << selector;
    let mut bytes = vec![];
    push32(&mut bytes, 0x0001_0000);
    for word in [count, range, selector, 16 * count - range] {
        push16(&mut bytes, word);
    }
    let mut offset = 12 + 16 * count;
    for (tag, table) in tables {
        bytes.extend(tag);
        // By the crate's rules the file may be too long, and its offsets are cut to 32 bits.
        for word in [checksum(table), offset as u32, table.len() as u32] {
            bytes.extend(word.to_be_bytes());
        }
        offset += table.len().next_multiple_of(4);
    }
    bytes
}

fn checksum(bytes: &[u8]) -> u32 {
    let word = |chunk: &[u8]| {
        let mut word = [0; 4];
        word[..chunk.len()].copy_from_slice(chunk);
        u32::from_be_bytes(word)
    };
    bytes.chunks(4).map(word).fold(0, u32::wrapping_add)
}
