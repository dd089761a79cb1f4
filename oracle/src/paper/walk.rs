//! Step 5: the roster, by the paper's stack with repeats left in.
use super::face::Face;
use super::outline::Outline;

/// Old ids in new order.
struct Roster {
    ids: Vec<u16>,
    numbered: Vec<bool>,
}

impl Roster {
    fn number(&mut self, id: u16) -> Result<(), u32> {
        if !self.numbered[usize::from(id)] {
            if self.ids.len() == 65_535 {
                return Err(7);
            }
            self.numbered[usize::from(id)] = true;
            self.ids.push(id);
        }
        Ok(())
    }
}

pub fn walk(face: &Face, requests: &[u16]) -> Result<Vec<u16>, u32> {
    let n = face.glyphs();
    if n == 0 {
        return Err(3);
    }
    let mut roster = Roster { ids: vec![], numbered: vec![false; n] };
    roster.number(0)?;
    for &id in requests {
        if usize::from(id) >= n {
            return Err(3);
        }
        roster.number(id)?;
    }
    let mut stack = roster.ids.clone();
    while let Some(id) = stack.pop() {
        roster.number(id)?;
        if let Outline::Composite { components, .. } = Outline::read(face, id)? {
            let new = components.into_iter().map(|(_, id)| id);
            stack.extend(new.filter(|&id| !roster.numbered[usize::from(id)]));
        }
    }
    Ok(roster.ids)
}
