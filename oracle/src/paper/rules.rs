//! One name for each line of docs/DIFFERENCES.md.
use crate::original::Build;

#[derive(Clone, Copy, Debug, PartialEq, Eq, PartialOrd, Ord)]
pub enum Cause {
    UnsortedTags,
    OttoWithGlyf,
    NoHmtx,
    NoMaxp,
    ShortHhea,
    /// Distinct strings over 65,535 bytes. A release build goes on, a checked one panics.
    NameStorage,
    /// Over 5,460 kept records. A release build goes on, a checked one panics.
    NameRecords,
    /// A kept string's offset and length add up to more than 65,535. A checked build panics.
    NameSum,
    LongFile,
    /// A 65,536th glyph. Every build panics.
    GlyphCount,
    /// Both refuse, but the crate's tests come in another order, and its error is another.
    TestOrder,
}

/// Whose rules decide where the two differ, and which differences were met.
pub struct Rules {
    crate_build: Option<Build>,
    pub used: Vec<Cause>,
}

impl Rules {
    pub fn paper() -> Self {
        Rules { crate_build: None, used: vec![] }
    }

    pub fn of(build: Build) -> Self {
        Rules { crate_build: Some(build), used: vec![] }
    }

    /// The paper refuses with `number`; the crate goes on, or panics.
    pub fn differ(&mut self, number: u32, cause: Cause) -> Result<(), u32> {
        self.note(cause);
        match (self.crate_build, cause) {
            (None, _) => Err(number),
            (Some(Build::Checked), Cause::NameStorage | Cause::NameRecords) => Err(number),
            (Some(_), _) => Ok(()),
        }
    }

    /// The crate meets this cause, whatever comes of it.
    pub fn note(&mut self, cause: Cause) {
        if self.crate_build.is_some() && !self.used.contains(&cause) {
            self.used.push(cause);
        }
    }
}
