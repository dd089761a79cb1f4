//! The errors of `subsetter`, name by name and word by word.
use crate::Refusal;
use std::fmt::{self, Display, Formatter};

/// Why [`subset`](crate::subset) gave no font. The names are those of `subsetter`, all six, so that
/// a `match` on them needs no change; the numbers are document 01's. [`Refusal`] tells more.
#[derive(Debug, Copy, Clone, Eq, PartialEq)]
pub enum Error {
    /// The file contains an unknown kind of font (refusal 1).
    UnknownKind,
    /// The font is malformed, or an id has no glyph (refusal 3).
    MalformedFont,
    /// The font relies on an unimplemented feature: its outlines are not TrueType's (refusal 2).
    Unimplemented,
    /// A kept name lies outside its storage (refusal 4); or there is no memory left.
    SubsetError,
    /// A number doesn't fit its field (refusal 5), or a 65,536th glyph is needed (refusal 7, where
    /// `subsetter` panics).
    OverflowError,
    /// Never given: Pitavele reads no CFF table.
    CFFError,
}

impl From<Refusal> for Error {
    fn from(refusal: Refusal) -> Self {
        match refusal {
            Refusal::UnknownKind => Self::UnknownKind,
            Refusal::NotTrueType => Self::Unimplemented,
            Refusal::MalformedFont => Self::MalformedFont,
            Refusal::Overflow | Refusal::TooManyGlyphs => Self::OverflowError,
            // The last two mean that there was no memory to lend.
            Refusal::NameOutsideStorage | Refusal::OutputTooShort { .. } | Refusal::ScratchTooShort => {
                Self::SubsetError
            }
        }
    }
}

impl Display for Error {
    fn fmt(&self, f: &mut Formatter) -> fmt::Result {
        f.write_str(match self {
            Self::UnknownKind => "unknown font kind",
            Self::MalformedFont => "malformed font",
            Self::Unimplemented => "unsupported feature in font",
            Self::SubsetError => "subsetting of font failed",
            Self::OverflowError => "overflow occurred",
            Self::CFFError => "processing CFF table failed",
        })
    }
}

impl std::error::Error for Error {}
