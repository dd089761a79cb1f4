//! once SUBJECT IDS TIMES FONT: one job for a profiler. SUBJECT is pitavele or crate; IDS a number or
//! `all`; FONT a file, or `made:N` for the font of N glyphs that growth uses, `crafted:K` for the
//! K-th of crafted.
use bench::fonts::{all, open, spread};
use bench::made::{crafted, grown};
use bench::subjects::{original, port, Job, Rooms};
use std::hint::black_box;
use std::path::Path;

fn main() {
    let words: Vec<String> = std::env::args().skip(1).collect();
    let [subject, count, times, font] = &words[..] else { panic!("once SUBJECT IDS TIMES FONT") };
    let (bytes, glyphs, own) = source(font);
    let ids = match (own, count.parse()) {
        (Some(own), _) => own,
        (None, Ok(count)) => spread(glyphs, count),
        (None, Err(_)) => all(glyphs),
    };
    let job = Job { font: &bytes, index: 0, glyphs, ids: &ids };
    let file = original(&job).expect("a font that can be cut");
    let mut rooms = Rooms::for_answer(glyphs, file.len());
    for _ in 0..times.parse().expect("how often") {
        match subject.as_str() {
            "pitavele" => assert_eq!(black_box(port(black_box(&job), &mut rooms)).refusal, 0),
            "crate" => drop(black_box(original(black_box(&job)))),
            other => panic!("no subject {other}"),
        }
    }
}

fn source(font: &str) -> (Vec<u8>, usize, Option<Vec<u16>>) {
    if let Some(n) = font.strip_prefix("made:") {
        let made = grown(n.parse().expect("a number of glyphs"));
        return (made.font, made.glyphs, None);
    }
    if let Some(k) = font.strip_prefix("crafted:") {
        let made = crafted().swap_remove(k.parse().expect("which one"));
        return (made.font, made.glyphs, Some(made.ids));
    }
    let font = open(Path::new(font)).expect("a font with outlines in glyf");
    (font.bytes, font.glyphs, None)
}
