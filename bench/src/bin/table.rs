//! table FOLDER [PICTURE]: the fonts of the table below the folder, and the bars.
use bench::fonts::{below, lists, named, TABLE};
use bench::harfbuzz::HarfBuzz;
use bench::picture::draw;
use bench::rows::{print, Row, HEAD};
use bench::subjects::{measure, Job};
use std::path::Path;
use std::process::ExitCode;

fn main() -> ExitCode {
    let mut words = std::env::args().skip(1);
    let folder = words.next().expect("table FOLDER [PICTURE]");
    let harfbuzz = HarfBuzz::find();
    let version = harfbuzz.as_ref().map_or("not installed".to_owned(), HarfBuzz::version);
    println!("HarfBuzz: {version}\n\n{HEAD}");
    let files = below(Path::new(&folder));
    let mut rows = vec![];
    let mut wrong = 0;
    for name in TABLE {
        let Some(font) = named(&files, name) else {
            eprintln!("{name}: not below {folder}");
            continue;
        };
        for ids in lists(font.glyphs) {
            let job = Job { font: &font.bytes, index: 0, glyphs: font.glyphs, ids: &ids };
            match measure(&job, harfbuzz.as_ref()) {
                Ok(measured) => rows.push(Row::new(name, font.glyphs, ids.len(), measured)),
                Err(why) => {
                    println!("{name}, {} ids: {why}", ids.len());
                    wrong += 1;
                    continue;
                }
            }
            print(rows.last().unwrap());
        }
    }
    let missed: usize = rows.iter().map(Row::missed).sum();
    println!("\n{} jobs, {wrong} whose file isn't the crate's, {missed} bars missed", rows.len() + wrong);
    if let Some(picture) = words.next() {
        std::fs::write(picture, draw(&rows)).expect("the picture");
    }
    ExitCode::from(u8::from(wrong + missed > 0))
}
