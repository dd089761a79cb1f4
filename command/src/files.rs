//! Files read, and written whole or not at all.
use crate::trouble::Trouble;
use std::fs::{self, File, OpenOptions, Permissions};
use std::io::{self, ErrorKind, Write};
use std::os::unix::fs::MetadataExt;
use std::path::{Path, PathBuf};
use std::process;

pub fn read(path: &Path) -> Result<Vec<u8>, Trouble> {
    fs::read(path).map_err(|why| Trouble::CannotRead(path.into(), why))
}

/// A reader that has gone away, as `head` does, is no trouble.
pub fn print(text: &str) -> Result<(), Trouble> {
    let mut out = io::stdout().lock();
    match out.write_all(text.as_bytes()).and_then(|()| out.flush()) {
        Err(why) if why.kind() != ErrorKind::BrokenPipe => Err(Trouble::CannotPrint(why)),
        _ => Ok(()),
    }
}

/// Where a file is to stand. Making one changes nothing.
pub struct Place {
    /// As it was typed.
    name: PathBuf,
    /// The file itself: a link is followed, so that it stays a link.
    path: PathBuf,
    /// The old file's, if there is one.
    permissions: Option<Permissions>,
}

impl Place {
    /// A place that may be written and isn't one of the files that are read.
    pub fn new(name: &Path, read: &[Option<&Path>]) -> Result<Self, Trouble> {
        let fail = |why| Trouble::CannotWrite(name.into(), why);
        match fs::symlink_metadata(name) {
            Err(why) if why.kind() == ErrorKind::NotFound => {
                return Ok(Self { name: name.into(), path: name.into(), permissions: None });
            }
            known => known.map_err(fail)?,
        };
        let path = fs::canonicalize(name).map_err(fail)?;
        let old = fs::metadata(&path).map_err(fail)?;
        if old.is_dir() {
            return Err(fail(ErrorKind::IsADirectory.into()));
        }
        // A device must not be renamed over.
        if !old.is_file() {
            return Err(Trouble::NoPlainFile(name.into()));
        }
        let same = |other: &Path| {
            fs::metadata(other).is_ok_and(|other| (other.dev(), other.ino()) == (old.dev(), old.ino()))
        };
        if read.iter().flatten().any(|other| same(other)) {
            return Err(Trouble::SameFile(name.into()));
        }
        // A file that its owner protects is not replaced, though its folder would allow it.
        OpenOptions::new().write(true).open(&path).map_err(fail)?;
        Ok(Self { name: name.into(), path, permissions: Some(old.permissions()) })
    }

    /// Writes to another name in the same folder, and renames when all of it is on the disk.
    pub fn write(self, bytes: &[u8]) -> Result<(), Trouble> {
        let fail = |why| Trouble::CannotWrite(self.name.clone(), why);
        let (beside, mut file) = self.create_beside().map_err(fail)?;
        let written = file
            .write_all(bytes)
            .and_then(|()| self.permissions.clone().map_or(Ok(()), |old| file.set_permissions(old)))
            .and_then(|()| file.sync_all())
            .and_then(|()| fs::rename(&beside, &self.path));
        written.map_err(|why| {
            // If it can't be removed either, the first reason is the one to tell.
            let _ = fs::remove_file(&beside);
            fail(why)
        })
    }

    fn create_beside(&self) -> io::Result<(PathBuf, File)> {
        let mut number = 0;
        loop {
            let beside = self.path.with_file_name(format!(".pitavele-{}-{number}", process::id()));
            match OpenOptions::new().write(true).create_new(true).open(&beside) {
                Err(why) if why.kind() == ErrorKind::AlreadyExists && number < 100 => number += 1,
                file => return file.map(|file| (beside, file)),
            }
        }
    }
}
