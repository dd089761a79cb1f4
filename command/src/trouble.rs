//! Everything that can go wrong, in the words the operator reads: one line each.
use pitavele::Refusal;
use std::fmt::{self, Display, Formatter};
use std::io;
use std::path::PathBuf;

pub enum Trouble {
    /// The words are no command.
    Usage(String),
    /// The list of ids is no list. Where it came from, and what is wrong with it.
    Ids(String, String),
    /// The output is one of the inputs.
    SameFile(PathBuf),
    CannotRead(PathBuf, io::Error),
    CannotWrite(PathBuf, io::Error),
    /// The output's name is taken by something that is no plain file.
    NoPlainFile(PathBuf),
    /// The font was written, but its roster couldn't be shown.
    CannotPrint(io::Error),
    Refused(PathBuf, Refusal),
}

impl Trouble {
    pub fn status(&self) -> u8 {
        match self {
            Self::Usage(_) | Self::Ids(..) | Self::SameFile(_) => 2,
            _ => 1,
        }
    }
}

impl Display for Trouble {
    fn fmt(&self, f: &mut Formatter) -> fmt::Result {
        match self {
            Self::Usage(what) => write!(f, "{what}; ./pitavele help shows what may be typed"),
            Self::Ids(place, what) => write!(f, "bad list of ids{place}: {what}"),
            Self::SameFile(path) => {
                write!(f, "{path:?} is read, so it can't be written too: name another OUT")
            }
            Self::CannotRead(path, why) => write!(f, "can't read {path:?}: {}", plain(why)),
            Self::CannotWrite(path, why) => {
                write!(f, "can't write {path:?}: {}; nothing was changed", plain(why))
            }
            Self::NoPlainFile(path) => write!(f, "can't write {path:?}: it is there, and is no plain file"),
            Self::CannotPrint(why) => write!(f, "can't print: {}", plain(why)),
            Self::Refused(font, refusal) => {
                write!(f, "{font:?}: {refusal}")?;
                match refusal {
                    Refusal::OutputTooShort { .. } | Refusal::ScratchTooShort => {
                        f.write_str(" (no memory left)")
                    }
                    _ => Ok(()),
                }
            }
        }
    }
}

/// The system's reason, without its number.
fn plain(why: &io::Error) -> String {
    match why.kind() {
        io::ErrorKind::IsADirectory => "it is a folder".into(),
        io::ErrorKind::NotFound => "there is no such file or folder".into(),
        io::ErrorKind::PermissionDenied => "permission denied".into(),
        io::ErrorKind::StorageFull => "the disk is full".into(),
        io::ErrorKind::OutOfMemory => "it doesn't fit in memory".into(),
        _ => why.to_string(),
    }
}
