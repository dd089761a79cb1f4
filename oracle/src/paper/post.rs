//! Step 8: post.
use super::rules::{Cause, Rules};
use crate::bytes::{push16, u16_at, u32_at};

/// New indexes run from 258 to 65,535.
const OWN_NAMES: usize = 65_278;

pub fn subset(table: &[u8], roster: &[u16], rules: &mut Rules) -> Result<Vec<u8>, u32> {
    if u32_at(table, 0).ok_or(3u32)? != 0x0002_0000 {
        return Ok(table.to_vec());
    }
    let count = u16_at(table, 32).ok_or(3u32)?;
    let indexes = table.get(34..34 + 2 * count).ok_or(3u32)?;
    let index = |&id: &u16| u16_at(indexes, 2 * usize::from(id));
    let old: Vec<_> = roster.iter().map_while(index).collect();
    if old.len() < roster.len() {
        if old.iter().filter(|&&index| index > 257).count() > OWN_NAMES {
            // The crate meets the large index first.
            rules.note(Cause::TestOrder);
        }
        return Err(3);
    }
    let names = names(&table[34 + 2 * count..]);

    let mut new = table[..32].to_vec();
    push16(&mut new, roster.len());
    let mut next = 258;
    let mut stored = vec![];
    for index in old {
        if index <= 257 {
            push16(&mut new, index);
            continue;
        }
        if next == 258 + OWN_NAMES {
            return Err(5);
        }
        push16(&mut new, next);
        next += 1;
        let name = names.get(index - 258).copied().unwrap_or(&[]);
        stored.push(name.len() as u8);
        stored.extend(name);
    }
    new.extend(stored);
    Ok(new)
}

/// The list ends at an empty or cut name.
fn names(mut rest: &[u8]) -> Vec<&[u8]> {
    let mut names = vec![];
    while let Some((&length, after)) = rest.split_first() {
        if length == 0 || after.len() < length.into() {
            break;
        }
        let (name, more) = after.split_at(length.into());
        names.push(name);
        rest = more;
    }
    names
}
