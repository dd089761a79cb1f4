//! Document 01's table of refusals.
use std::fmt::{self, Display, Formatter};

/// Why a font was not cut. The numbers and the order of the tests are those of docs/01-scope.md.
#[derive(Debug, Clone, Copy, PartialEq, Eq, Hash)]
#[non_exhaustive]
pub enum Refusal {
    /// 1: the bytes don't start as a font does.
    UnknownKind,
    /// 2: a font, but its outlines are not TrueType's (it has no usable `glyf` table, or is CFF).
    NotTrueType,
    /// 3: the font is malformed, or an id was asked for that has no glyph, or a collection has no
    /// such face.
    MalformedFont,
    /// 4: a string of the `name` table that would be kept lies outside the table.
    NameOutsideStorage,
    /// 5: a number doesn't fit its field in the new file.
    Overflow,
    /// 6: the lent output is too short.
    OutputTooShort {
        /// The length of the file, in bytes.
        needed: u64,
    },
    /// 7: a 65,536th glyph is needed.
    TooManyGlyphs,
    /// 8: the lent scratch is too short.
    ScratchTooShort,
}

impl Refusal {
    /// The refusal's number.
    pub fn number(self) -> u32 {
        match self {
            Self::UnknownKind => 1,
            Self::NotTrueType => 2,
            Self::MalformedFont => 3,
            Self::NameOutsideStorage => 4,
            Self::Overflow => 5,
            Self::OutputTooShort { .. } => 6,
            Self::TooManyGlyphs => 7,
            Self::ScratchTooShort => 8,
        }
    }

    /// The refusal with a number, none for 0; `needed` counts for 6 only.
    pub(crate) fn of(number: u32, needed: u64) -> Option<Self> {
        Some(match number {
            0 => return None,
            1 => Self::UnknownKind,
            2 => Self::NotTrueType,
            3 => Self::MalformedFont,
            4 => Self::NameOutsideStorage,
            5 => Self::Overflow,
            6 => Self::OutputTooShort { needed },
            7 => Self::TooManyGlyphs,
            8 => Self::ScratchTooShort,
            _ => unreachable!("the call is proved to give no refusal {number}"),
        })
    }
}

impl Display for Refusal {
    fn fmt(&self, f: &mut Formatter) -> fmt::Result {
        write!(f, "refusal {}: ", self.number())?;
        match self {
            Self::UnknownKind => f.write_str("unknown kind of file, not a font"),
            Self::NotTrueType => f.write_str("no TrueType outlines in this font"),
            Self::MalformedFont => f.write_str("malformed font, or an id or a face that it doesn't have"),
            Self::NameOutsideStorage => f.write_str("a kept name lies outside its storage"),
            Self::Overflow => f.write_str("a number doesn't fit its field"),
            Self::OutputTooShort { needed } => write!(f, "output too short, {needed} bytes are needed"),
            Self::TooManyGlyphs => f.write_str("a 65,536th glyph is needed"),
            Self::ScratchTooShort => f.write_str("scratch too short"),
        }
    }
}

impl std::error::Error for Refusal {}
