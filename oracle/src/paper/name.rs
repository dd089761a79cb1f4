//! Step 7: name.
use super::rules::{Cause, Rules};
use crate::bytes::u16_at;
use std::collections::HashMap;

pub fn subset(table: &[u8], rules: &mut Rules) -> Result<Vec<u8>, u32> {
    if u16_at(table, 0).ok_or(3u32)? != 0 {
        return Ok(table.to_vec());
    }
    let (records, storage) = parse(table).ok_or(3u32)?;
    let records: Vec<_> = records.into_iter().filter(|record| is_kept(record)).collect();
    let mut stored: Vec<u8> = vec![];
    let mut places = HashMap::new();
    let mut offsets = vec![];
    for record in &records {
        let Some(string) = string(record, storage) else {
            return Err(outside(record, stored.len(), rules));
        };
        offsets.push(*places.entry(string).or_insert_with(|| {
            stored.extend(string);
            stored.len() - string.len()
        }));
    }
    if stored.len() > 65_535 {
        rules.differ(5, Cause::NameStorage)?;
    }
    if records.len() > 5_460 {
        rules.differ(5, Cause::NameRecords)?;
    }
    let mut new = vec![];
    push(&mut new, 0);
    push(&mut new, records.len());
    push(&mut new, 6 + 12 * records.len());
    for (record, offset) in records.iter().zip(offsets) {
        new.extend(&record[..10]);
        push(&mut new, offset);
    }
    new.extend(stored);
    Ok(new)
}

/// By the crate's rules, in a release build, an offset too large is cut to 16 bits.
fn push(table: &mut Vec<u8>, value: usize) {
    table.extend((value as u16).to_be_bytes());
}

fn parse(table: &[u8]) -> Option<(Vec<&[u8]>, &[u8])> {
    let (count, start) = (u16_at(table, 2)?, u16_at(table, 4)?);
    let records = table.get(6..6 + 12 * count)?;
    Some((records.chunks(12).collect(), table.get(start..)?))
}

fn is_kept(record: &[u8]) -> bool {
    let field = |i: usize| u16_at(record, 2 * i).unwrap();
    let unicode = field(0) == 0 || field(0) == 3 && [0, 1, 10].contains(&field(1));
    unicode && (field(3) <= 9 || (11..=14).contains(&field(3)))
}

fn range(record: &[u8]) -> (usize, usize) {
    let (length, offset) = (u16_at(record, 8).unwrap(), u16_at(record, 10).unwrap());
    (offset, offset + length)
}

fn string<'a>(record: &[u8], storage: &'a [u8]) -> Option<&'a [u8]> {
    let (start, end) = range(record);
    storage.get(start..end).filter(|_| end <= 65_535)
}

/// Refusal 4, and why a checked build of the crate may not get as far as its SubsetError.
fn outside(record: &[u8], stored: usize, rules: &mut Rules) -> u32 {
    let too_much = [(Cause::NameStorage, stored), (Cause::NameSum, range(record).1)];
    for (cause, number) in too_much {
        if number > 65_535 {
            rules.note(cause);
        }
    }
    4
}
