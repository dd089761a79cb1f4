//! Fixed cases at the paper's boundaries, its samples and slips among them.
mod directory;
mod limits;
mod tables;

use super::{Case, Room};
pub use limits::{every_second, huge};

type Named = (String, Case);

pub fn all() -> Vec<Named> {
    [small(), wide(), limits::large()].concat()
}

/// Fonts of a few kilobytes at most, and outputs too.
pub fn small() -> Vec<Named> {
    use {directory::*, tables::*};
    [kinds(), collections(), lengths(), samples(), composites(), names(), posts(), long_posts(), rooms()].concat()
}

/// Small fonts whose file is large: their outlines or strings lie over each other.
pub fn wide() -> Vec<Named> {
    [limits::loca_widths(), limits::name_storages()].concat()
}

fn named(name: impl Into<String>, case: Case) -> Named {
    (name.into(), case)
}

fn simple(length: usize) -> Vec<u8> {
    vec![1; length]
}
