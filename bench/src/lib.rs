//! Pitavele beside the crate, HarfBuzz and a floor: the same font, the same list, one process.
pub mod bars;
pub mod fonts;
pub mod harfbuzz;
pub mod made;
pub mod picture;
pub mod rows;
pub mod stack;
pub mod subjects;
pub mod timing;
