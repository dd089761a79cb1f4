//! Step 6: hmtx and hhea.
use crate::bytes::{push16, u16_at};

/// The new hmtx and its count of long metrics.
pub fn subset(hmtx: &[u8], old_count: usize, roster: &[u16]) -> Result<(Vec<u8>, usize), u32> {
    if old_count == 0 {
        return Err(5);
    }
    let last = u16_at(hmtx, 4 * (old_count - 1)).ok_or(3u32)?;
    let metric = |&id: &u16| {
        let id = usize::from(id);
        if id < old_count {
            Some((u16_at(hmtx, 4 * id)?, u16_at(hmtx, 4 * id + 2)?))
        } else {
            Some((last, u16_at(hmtx, 4 * old_count + 2 * (id - old_count))?))
        }
    };
    let metrics: Vec<_> = roster.iter().map(metric).collect::<Option<_>>().ok_or(3u32)?;
    let count = smallest_count(&metrics);
    let mut table = vec![];
    for (place, &(advance, bearing)) in metrics.iter().enumerate() {
        if place < count {
            push16(&mut table, advance);
        }
        push16(&mut table, bearing);
    }
    Ok((table, count))
}

/// The smallest k of at least 1 such that all advances from place k - 1 on are equal: each step
/// down needs only its own neighbour.
fn smallest_count(metrics: &[(usize, usize)]) -> usize {
    let mut k = metrics.len();
    while k > 1 && metrics[k - 2].0 == metrics[k - 1].0 {
        k -= 1;
    }
    k
}

pub fn hhea(old: &[u8], count: usize) -> Vec<u8> {
    let mut table = old[..old.len() - 2].to_vec();
    push16(&mut table, count);
    table
}
