//! survey FOLDER: every font below the folder, with no id, 5 and all; the least ratios to the crate.
use bench::bars::LEAST;
use bench::fonts::{all, below, open, spread};
use bench::rows::{grouped, short};
use bench::subjects::{measure, Job, Times};
use std::path::Path;
use std::process::ExitCode;

fn main() -> ExitCode {
    let folder = std::env::args().nth(1).expect("survey FOLDER");
    let mut found: Vec<(f64, String)> = vec![];
    let mut wrong = 0;
    for font in below(Path::new(&folder)).iter().filter_map(|file| open(file)) {
        for ids in [vec![], spread(font.glyphs, 5), all(font.glyphs)] {
            let job = Job { font: &font.bytes, index: 0, glyphs: font.glyphs, ids: &ids };
            let what = format!("{} ({}), {} ids", font.name, grouped(font.glyphs), ids.len());
            match measure(&job, None) {
                Ok(measured) => {
                    let Times { original, port, .. } = measured.times;
                    let times = format!("{} / {} µs", short(original), short(port));
                    found.push((original / port, format!("{what}: {times}")));
                }
                Err(why) => {
                    println!("{what}: {why}");
                    wrong += 1;
                }
            }
        }
    }
    found.sort_by(|a, b| a.0.total_cmp(&b.0));
    println!(
        "{} jobs, {wrong} whose file isn't the crate's; crate / Pitavele, the least:",
        found.len() + wrong
    );
    found.iter().take(12).for_each(|(ratio, what)| println!("{ratio:>6.2}  {what}"));
    println!("median {:.2}", found.get(found.len() / 2).map_or(0.0, |(ratio, _)| *ratio));
    ExitCode::from(u8::from(wrong > 0 || found.first().is_some_and(|(ratio, _)| *ratio < LEAST)))
}
