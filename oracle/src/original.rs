//! The crate, in both builds.

#[derive(Clone, Copy, Debug, PartialEq, Eq)]
pub enum Build {
    /// Overflow checks off: sums wrap.
    Release,
    /// Overflow checks and debug assertions on: sums panic.
    Checked,
}

pub const BUILDS: [Build; 2] = [Build::Release, Build::Checked];

#[derive(Clone, PartialEq, Eq)]
pub struct Made {
    pub roster: Vec<u16>,
    pub file: Vec<u8>,
}

/// The crate's file and roster, or the name of its error, or `panic: ` and its message.
pub fn subset(build: Build, font: &[u8], index: u32, ids: &[u16]) -> Result<Made, String> {
    let asked = match build {
        Build::Release => subsetter::ask::ask(font, index, ids),
        Build::Checked => subsetter_checked::ask::ask(font, index, ids),
    };
    asked.map(|(roster, file)| Made { roster, file })
}

/// The crate's panics are answers here; only the judge's own are heard.
pub fn hush_panics() {
    std::panic::set_hook(Box::new(|info| {
        if info.location().is_some_and(|place| place.file().starts_with("src/")) {
            eprintln!("{info}");
        }
    }));
}
