//! Stands for the crate's module cff, which is out of scope and not in the source given.
use super::*;

pub fn subset(_: &mut Context) -> Result<()> {
    Err(Error::CFFError)
}
