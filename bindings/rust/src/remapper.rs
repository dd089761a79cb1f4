//! The request list of `subsetter`'s users.
use std::fmt::{self, Debug, Formatter};
use std::hash::{Hash, Hasher};

/// A remapper that allows to assign a new ordering to a subset of glyphs.
///
/// For example, let's say that we want to subset a font that only contains the glyphs 4, 9 and 16.
/// In this case, the remapper could yield a remapping that assigns the following glyph IDs:
/// - 0 -> 0 (The .notdef glyph will always be included)
/// - 4 -> 1
/// - 9 -> 2
/// - 16 -> 3
///
/// This is necessary because a font needs to have a contiguous sequence of glyph IDs that start
/// from 0, so we cannot just reuse the old ones, but we need to define a mapping.
#[derive(Clone)]
pub struct GlyphRemapper {
    /// By old id, the new one plus 1; 0, or nothing, for an id without a number.
    forward: Vec<u16>,
    /// The old ids, in the order of the new ones.
    backward: Vec<u16>,
}

impl Default for GlyphRemapper {
    fn default() -> Self {
        // .notdef is always a part of a subset.
        Self { forward: vec![1], backward: vec![0] }
    }
}

impl GlyphRemapper {
    /// Create a new instance of a glyph remapper. `.notdef` will always be a member of the subset.
    pub fn new() -> Self {
        Self::default()
    }

    /// Create a remapper from an existing set of glyphs.
    pub fn new_from_glyphs(glyphs: &[u16]) -> Self {
        let mut map = Self::new();
        for &glyph in glyphs {
            map.remap(glyph);
        }
        map
    }

    /// Create a remapper from an existing set of glyphs. The method will ensure that the mapping
    /// is monotonically increasing.
    pub fn new_from_glyphs_sorted(glyphs: &[u16]) -> Self {
        let mut sorted = glyphs.to_vec();
        sorted.sort_unstable();
        Self::new_from_glyphs(&sorted)
    }

    /// Get the number of gids that have been remapped.
    pub fn num_gids(&self) -> u16 {
        // `remap` keeps it below 65,536.
        self.backward.len() as u16
    }

    /// Remap a glyph ID, or return the existing mapping if the glyph ID has already been remapped
    /// before.
    ///
    /// # Panics
    /// If it is the 65,536th, as `subsetter` does.
    pub fn remap(&mut self, old: u16) -> u16 {
        if let Some(new) = self.get(old) {
            return new;
        }
        let new = self.num_gids();
        let after = new.checked_add(1).expect("remapper was overflowed");
        let place = usize::from(old);
        if place >= self.forward.len() {
            self.forward.resize(place + 1, 0);
        }
        self.forward[place] = after;
        self.backward.push(old);
        new
    }

    /// Get the mapping of a glyph ID, if it has been remapped before.
    #[inline]
    pub fn get(&self, old: u16) -> Option<u16> {
        self.forward.get(usize::from(old))?.checked_sub(1)
    }

    /// Return an iterator that yields the old glyphs, in ascending order that is defined by the
    /// remapping. For example, if we perform the following remappings:
    /// 3, 39, 8, 3, 10, 2
    ///
    /// Then the iterator will yield the following items in the order below. The order also
    /// implicitly defines the glyph IDs in the new mapping:
    ///
    /// 0 (0), 3 (1), 39 (2), 8 (3), 10 (4), 2 (5)
    pub fn remapped_gids(&self) -> impl Iterator<Item = u16> + '_ {
        self.backward.iter().copied()
    }

    /// The same, as the proved call takes it.
    pub(crate) fn as_slice(&self) -> &[u16] {
        &self.backward
    }
}

impl Debug for GlyphRemapper {
    fn fmt(&self, f: &mut Formatter) -> fmt::Result {
        f.debug_tuple("GlyphRemapper").field(&self.backward).finish()
    }
}

// Two remappers are the same if they number the same ids alike, however long `forward` has grown.

impl PartialEq for GlyphRemapper {
    fn eq(&self, other: &Self) -> bool {
        self.backward == other.backward
    }
}

impl Eq for GlyphRemapper {}

impl Hash for GlyphRemapper {
    fn hash<H: Hasher>(&self, state: &mut H) {
        self.backward.hash(state);
    }
}
