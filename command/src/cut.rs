//! The verb `cut`.
use crate::files;
use crate::ids;
use crate::trouble::Trouble;
use crate::words::Cut;
use std::fmt::Write;

pub fn cut(job: &Cut) -> Result<(), Trouble> {
    let read = [Some(job.font.as_path()), ids::file(&job.ids)];
    let place = files::Place::new(&job.out, &read)?;
    let font = files::read(&job.font)?;
    let ids = ids::read(&job.ids)?;
    let made = pitavele::cut(&font, job.face, &ids)
        .map_err(|refusal| Trouble::Refused(job.font.clone(), refusal))?;
    place.write(&made.font)?;
    files::print(&report(job, font.len(), &made))
}

/// The roster, old to new, and the lengths.
fn report(job: &Cut, before: usize, made: &pitavele::Cut) -> String {
    let mut text = String::from("  old   new\n");
    for (new, old) in made.roster.iter().enumerate() {
        // Writing to a String can't fail.
        let _ = writeln!(text, "{old:>5} {new:>5}");
    }
    let _ = writeln!(text, "{before} bytes before: {}", job.font.display());
    let _ = writeln!(text, "{} bytes after: {}", made.font.len(), job.out.display());
    text
}

/// The first thing a newcomer sees: ½ of the sample font, by the command he would type.
pub fn sample() -> Result<(), Trouble> {
    let job =
        Cut { font: "sample/press.ttf".into(), ids: "7".into(), out: "target/half.ttf".into(), face: 0 };
    files::print(
        "The sample font has ten glyphs. Glyph 7 is ½, and has no outline of its own: it borrows\n\
         the 1 (glyph 2), the bar (glyph 6) and the 2 (glyph 3). To keep ½ and what it needs:\n\n  \
         ./pitavele cut sample/press.ttf 7 target/half.ttf\n\n",
    )?;
    cut(&job)?;
    files::print(
        "\nIn the new font ½ is glyph 1 and borrows glyphs 4, 3 and 2. Glyph 0, the box for what is\n\
         missing, always stays. ./pitavele help shows what else may be typed.\n",
    )
}
