//! One question to the crate: the file it makes and the roster its closure leaves, by its own
//! functions and nothing else. The roster isn't part of the crate's answer, so the closure is
//! run a second time.
use crate::{glyf, parse, subset, Error, GlyphRemapper};
use std::any::Any;
use std::panic::{catch_unwind, AssertUnwindSafe};

pub fn ask(font: &[u8], index: u32, ids: &[u16]) -> Result<(Vec<u16>, Vec<u8>), String> {
    let asked = catch_unwind(AssertUnwindSafe(|| {
        let mut mapper = GlyphRemapper::new_from_glyphs(ids);
        let file = subset(font, index, &mapper)?;
        glyf::closure(&parse(font, index)?, &mut mapper)?;
        Ok::<_, Error>((mapper.remapped_gids().collect(), file))
    }));
    match asked {
        Ok(Ok(made)) => Ok(made),
        Ok(Err(error)) => Err(format!("{error:?}")),
        Err(payload) => Err(format!("panic: {}", message(&*payload))),
    }
}

fn message(payload: &(dyn Any + Send)) -> &str {
    let text = payload.downcast_ref::<&str>().copied();
    text.or(payload.downcast_ref::<String>().map(String::as_str)).unwrap_or_default()
}
