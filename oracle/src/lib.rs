//! Judges Pitavele against document 01 written a second time, and that paper against the crate.
pub mod bytes;
pub mod differences;
pub mod generate;
pub mod judge;
pub mod original;
pub mod paper;
pub mod port;
pub mod report;
