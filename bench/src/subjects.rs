//! The four that are timed on one job.
use crate::harfbuzz::HarfBuzz;
use crate::timing::{least, Subject};
use oracle::port;
use std::hint::black_box;
use subsetter::GlyphRemapper;

/// A question: which face of which font, and which glyphs.
pub struct Job<'a> {
    pub font: &'a [u8],
    pub index: u32,
    /// n of document 01.
    pub glyphs: usize,
    pub ids: &'a [u16],
}

/// Microseconds.
#[derive(Clone, Copy)]
pub struct Times {
    pub original: f64,
    pub harfbuzz: Option<f64>,
    pub port: f64,
    pub floor: f64,
}

/// What one job took, and what came out.
pub struct Measured {
    pub times: Times,
    pub length: usize,
}

/// What a caller lends. It is made once, as a caller would.
pub struct Rooms {
    pub scratch: Vec<u16>,
    pub out: Vec<u8>,
}

impl Rooms {
    pub fn for_answer(glyphs: usize, length: usize) -> Rooms {
        Rooms { scratch: vec![0; 4 * glyphs], out: vec![0; length] }
    }
}

/// The map of ids is made anew each time: it is part of the question. The file is the crate's own
/// allocation, freed again: Pitavele's caller lends it once.
pub fn original(job: &Job) -> Result<Vec<u8>, String> {
    let mapper = GlyphRemapper::new_from_glyphs(job.ids);
    subsetter::subset(job.font, job.index, &mapper).map_err(|error| format!("{error:?}"))
}

pub fn port(job: &Job, rooms: &mut Rooms) -> port::Answer {
    port::subset(job.font, job.index, job.ids, &mut rooms.scratch, &mut rooms.out)
}

/// What no subsetter of this contract can leave out: the file is written once and read twice by
/// its sums, and the scratch is left zero.
pub fn floor(file: &[u8], rooms: &mut Rooms) {
    rooms.scratch.fill(0);
    rooms.out.copy_from_slice(black_box(file));
    black_box(sum(black_box(&rooms.out)));
    black_box(sum(black_box(&rooms.out)));
}

fn sum(bytes: &[u8]) -> u32 {
    let words = bytes.chunks_exact(4).map(|word| u32::from_be_bytes(word.try_into().unwrap()));
    words.fold(0, u32::wrapping_add)
}

/// Times all subjects, after Pitavele's file was found equal to the crate's, byte for byte.
pub fn measure(job: &Job, harfbuzz: Option<&HarfBuzz>) -> Result<Measured, String> {
    let file = original(job)?;
    let mut rooms = Rooms::for_answer(job.glyphs, file.len());
    let mut floor_rooms = Rooms::for_answer(job.glyphs, file.len());
    let answer = port(job, &mut rooms);
    if answer.refusal != 0 || answer.length as usize != file.len() || rooms.out != file {
        return Err(format!("not the crate's file: {answer:?}"));
    }
    let mut subjects: Vec<Subject> = vec![
        Box::new(|| drop(black_box(original(black_box(job))))),
        Box::new(|| {
            black_box(port(black_box(job), &mut rooms));
        }),
        Box::new(|| floor(&file, &mut floor_rooms)),
    ];
    // Where HarfBuzz fails there is nothing to time.
    if let Some(harfbuzz) = harfbuzz.filter(|harfbuzz| harfbuzz.subset(job).is_some_and(|made| made > 0)) {
        subjects.push(Box::new(|| {
            black_box(harfbuzz.subset(black_box(job)));
        }));
    }
    let times = least(&mut subjects);
    drop(subjects);
    let times =
        Times { original: times[0], port: times[1], floor: times[2], harfbuzz: times.get(3).copied() };
    Ok(Measured { times, length: file.len() })
}
