//! stack FOLDER: the deepest stack of the library over the table's jobs and the crafted ones.
use bench::fonts::{below, lists, named, TABLE};
use bench::made::crafted;
use bench::rows::grouped;
use bench::stack::depth;
use bench::subjects::{original, Job, Rooms};
use std::path::Path;

fn main() {
    let folder = std::env::args().nth(1).expect("stack FOLDER");
    let files = below(Path::new(&folder));
    let mut found: Vec<(usize, String)> = vec![];
    for font in TABLE.iter().filter_map(|name| named(&files, name)) {
        for ids in lists(font.glyphs) {
            let job = Job { font: &font.bytes, index: 0, glyphs: font.glyphs, ids: &ids };
            found.push((of(&job), format!("{}, {} ids", font.name, ids.len())));
        }
    }
    for made in crafted() {
        let job = Job { font: &made.font, index: 0, glyphs: made.glyphs, ids: &made.ids };
        found.push((of(&job), made.what));
    }
    found.sort_by(|a, b| b.0.cmp(&a.0));
    println!("Deepest stack of {} jobs, bytes:", found.len());
    let (deepest, what) = found.first().expect("a job");
    println!("{:>8}  {what}", grouped(*deepest));
    // The same number again and again says nothing new.
    for pair in found.windows(2).filter(|pair| pair[0].0 != pair[1].0) {
        println!("{:>8}  {}", grouped(pair[1].0), pair[1].1);
    }
}

fn of(job: &Job) -> usize {
    let length = original(job).map_or(0, |file| file.len());
    depth(job, &mut Rooms::for_answer(job.glyphs, length))
}
