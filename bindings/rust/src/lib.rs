/*!
Cuts TrueType fonts down to the glyphs a document needs, by code that is proved: see the README of
the repository for what that means. It is a drop-in for the TrueType side of the crate `subsetter`
0.2.6. In Cargo.toml,

```toml
subsetter = { package = "pitavele", path = "pitavele/bindings/rust" }
```

in the place of `subsetter = "0.2.6"`, and nothing else changes: [`subset`], [`GlyphRemapper`] and
[`Error`] have its names and give its answers. [`cut`] also says which glyphs were kept and exactly
why a font was refused; [`subset_into`] works in memory that you lend and allocates nothing.

This crate holds no rule of fonts. It lends memory to the proved function and hands on its answer.

# Example
½ is drawn from three other glyphs, and they come along.

```
# fn main() -> Result<(), Box<dyn std::error::Error>> {
let font = std::fs::read("../../sample/press.ttf")?;
let half = 7;

let cut = pitavele::cut(&font, 0, &[half])?;
assert_eq!(cut.roster, [0, half, 3, 6, 2]); // .notdef, ½, and its 2, bar and 1
assert!(cut.font.len() < font.len());

// The same file, as a user of `subsetter` writes it.
use pitavele::{subset, GlyphRemapper};
let mut remapper = GlyphRemapper::new();
assert_eq!(remapper.remap(half), 1);
assert_eq!(subset(&font, 0, &remapper)?, cut.font);
# Ok(())
# }
```
*/
#![deny(missing_docs)]
#![deny(unsafe_code)]

mod edge;
mod error;
mod refusal;
mod remapper;

pub use error::Error;
pub use refusal::Refusal;
pub use remapper::GlyphRemapper;

/// Scratch that is enough for any call on any font, in 16-bit numbers.
pub const MAX_SCRATCH: usize = 4 * 65_536;

/// A font that was cut, and the glyphs it has.
#[derive(Debug, Clone, PartialEq, Eq)]
pub struct Cut {
    /// The new file.
    pub font: Vec<u8>,
    /// The old ids of its glyphs, in the order of their new ids: glyph 0, the ids asked for, and
    /// what their composites are made of.
    pub roster: Vec<u16>,
}

/// What [`subset_into`] left in the lent memory.
#[derive(Debug, Clone, Copy, PartialEq, Eq)]
pub struct Written {
    /// The number of glyphs. As many places at the start of the scratch hold the old ids.
    pub count: usize,
    /// The length of the file at the start of the output.
    pub length: usize,
}

/// Subset the font face to include only the necessary glyphs and tables.
///
/// - The `data` must be a TrueType font or a collection of them.
/// - The `index` is only relevant if the data contains a font collection. Otherwise, it should
///   be 0.
///
/// The file is, byte for byte, the one that `subsetter` makes. Some damaged fonts that it cuts, to
/// something nobody can read, are refused here: docs/DIFFERENCES.md lists them.
pub fn subset(data: &[u8], index: u32, mapper: &GlyphRemapper) -> Result<Vec<u8>, Error> {
    Ok(cut(data, index, mapper.as_slice())?.font)
}

/// Cuts a font to glyph 0, the glyphs `ids` and what their composites are made of. The ids may
/// repeat, in any order; they are numbered in the order of their first appearance. `index` is the
/// face of a collection, and ignored in a single font.
///
/// The memory is this function's care: refusals 6 and 8 mean that there is none left to lend.
pub fn cut(font: &[u8], index: u32, ids: &[u16]) -> Result<Cut, Refusal> {
    // Small rooms first: for a few glyphs, zeroing large ones would take longer than the cut. The
    // call says at once if the scratch is too short, and how long the output must be.
    let mut scratch = room(MAX_SCRATCH / 16).ok_or(Refusal::ScratchTooShort)?;
    let mut out = room(font.len().min(65_536 + 256 * ids.len())).unwrap_or_default();
    loop {
        match subset_into(font, index, ids, &mut scratch, &mut out) {
            Err(short @ Refusal::ScratchTooShort) => scratch = room(2 * scratch.len()).ok_or(short)?,
            Err(short @ Refusal::OutputTooShort { needed }) => {
                out = usize::try_from(needed).ok().and_then(room).ok_or(short)?;
            }
            answer => return answer.map(|written| fit(out, scratch, written)),
        }
    }
}

fn fit(mut font: Vec<u8>, mut roster: Vec<u16>, written: Written) -> Cut {
    font.truncate(written.length);
    font.shrink_to_fit();
    roster.truncate(written.count);
    roster.shrink_to_fit();
    Cut { font, roster }
}

/// Cuts a font as [`cut`] does, in lent memory: the file goes to the start of `out`, the roster to
/// the start of `scratch`. Nothing is allocated.
///
/// On success the rest of `out` is unchanged. A refusal changes no byte of `out`; 6 says how long
/// it must be. Of the scratch, the first 4 numbers for each glyph of the font are used, and zero
/// afterwards but for the roster; [`scratch_for`] says how much is enough.
pub fn subset_into(
    font: &[u8],
    index: u32,
    ids: &[u16],
    scratch: &mut [u16],
    out: &mut [u8],
) -> Result<Written, Refusal> {
    let answer = edge::subset(font, index, ids, scratch, out);
    match Refusal::of(answer.refusal, answer.length) {
        Some(refusal) => Err(refusal),
        // Both count places of memory lent to the call, so they fit.
        None => Ok(Written { count: answer.count as usize, length: answer.length as usize }),
    }
}

/// Scratch that is enough for any call on this font, in 16-bit numbers: a glyph needs four, has at
/// least 2 bytes of the font to itself, and there are at most 65,536.
pub fn scratch_for(font: &[u8]) -> usize {
    MAX_SCRATCH.min(font.len().saturating_mul(2))
}

/// So many zeros, if there is memory for them.
fn room<T: Clone + Default>(length: usize) -> Option<Vec<T>> {
    let mut zeros = Vec::new();
    zeros.try_reserve_exact(length).ok()?;
    zeros.resize(length, T::default());
    Some(zeros)
}
