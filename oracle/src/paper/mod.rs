//! Document 01 once more, in plain Rust: the paper's words in the paper's order, with no code of
//! the crate or of Pitavele, so that the three can disagree. It favours the words over speed.
//!
//! The same text can be run by the crate's rules instead: at each line of docs/DIFFERENCES.md
//! where the crate goes on although the paper refuses, `Rules` asks which of the two it is. So a
//! difference is explained only if the crate's own rule at that place gives the crate's bytes.
mod face;
mod file;
mod glyf;
mod metrics;
mod name;
mod outline;
mod post;
mod rules;
mod walk;

use crate::bytes::push16;
use crate::original::Made;
use crate::port::Answer;
use face::Face;
pub use rules::{Cause, Rules};

pub struct Request<'a> {
    pub font: &'a [u8],
    pub index: u32,
    pub ids: &'a [u16],
}

/// Steps 1 to 9, as if the caller's rooms had no end.
pub struct Judgement<'a> {
    /// n, once steps 1 to 3 are passed.
    pub glyphs: Option<usize>,
    pub outcome: Result<Plan<'a>, u32>,
    /// The lines of docs/DIFFERENCES.md that were used; none by the paper's rules.
    pub causes: Vec<Cause>,
}

pub struct Plan<'a> {
    pub roster: Vec<u16>,
    tables: file::Tables<'a>,
}

impl Plan<'_> {
    pub fn length(&self) -> usize {
        self.tables.length()
    }

    pub fn make(&self) -> Made {
        Made { roster: self.roster.clone(), file: self.tables.write() }
    }
}

pub fn judge<'a>(request: &Request<'a>, mut rules: Rules) -> Judgement<'a> {
    match face::open(request.font, request.index, &mut rules) {
        Err(number) => Judgement { glyphs: None, outcome: Err(number), causes: rules.used },
        Ok(face) => {
            let outcome = plan(&face, request.ids, &mut rules);
            Judgement { glyphs: Some(face.glyphs()), outcome, causes: rules.used }
        }
    }
}

/// Steps 5 to 9.
fn plan<'a>(face: &Face<'a>, ids: &[u16], rules: &mut Rules) -> Result<Plan<'a>, u32> {
    let roster = walk::walk(face, ids)?;
    let mut tables = file::Tables::default();
    if let Some(hmtx) = face.hmtx {
        let (metrics, count) = metrics::subset(hmtx, face.old_count, &roster)?;
        tables.add(b"hmtx", metrics);
        tables.add(b"hhea", metrics::hhea(face.hhea, count));
    }
    if let Some(name) = face.optional(b"name") {
        tables.add(b"name", name::subset(name, rules)?);
    }
    if let Some(post) = face.optional(b"post") {
        tables.add(b"post", post::subset(post, &roster, rules)?);
    }
    for tag in [b"cvt ", b"fpgm", b"prep"] {
        if let Some(table) = face.optional(tag) {
            tables.add(tag, table.to_vec());
        }
    }
    if let Some(maxp) = face.maxp {
        let mut table = vec![0, 1, 0, 0];
        push16(&mut table, roster.len());
        table.extend(&maxp[6..]);
        tables.add(b"maxp", table);
    }
    tables.head = face.head.to_vec();
    tables.glyphs = glyf::Glyphs::of(face, &roster);
    if tables.length() > 0xFFFF_FFFF {
        rules.differ(5, Cause::LongFile)?;
    }
    Ok(Plan { roster, tables })
}

/// What a call must leave: its answer, and the two lent slices afterwards.
pub struct Left {
    pub answer: Answer,
    pub scratch: Vec<u16>,
    pub out: Vec<u8>,
}

/// Steps 4 and 10, and the rules about scratch and output, on slices as they were lent.
pub fn leave(judgement: &Judgement, scratch: &[u16], out: &[u8]) -> Left {
    let (mut scratch, mut out) = (scratch.to_vec(), out.to_vec());
    let refused = |refusal, length| Answer { refusal, count: 0, length };
    let answer = match (judgement.glyphs, &judgement.outcome) {
        (None, Err(number)) => refused(*number, 0),
        (None, Ok(_)) => unreachable!("no plan without a face"),
        (Some(n), _) if scratch.len() < 4 * n => refused(8, 0),
        (Some(n), outcome) => {
            scratch[..4 * n].fill(0);
            match outcome {
                Err(number) => refused(*number, 0),
                Ok(plan) if out.len() < plan.length() => refused(6, plan.length() as u64),
                Ok(plan) => {
                    let made = plan.make();
                    scratch[..made.roster.len()].copy_from_slice(&made.roster);
                    out[..made.file.len()].copy_from_slice(&made.file);
                    Answer { refusal: 0, count: made.roster.len() as u32, length: made.file.len() as u64 }
                }
            }
        }
    };
    Left { answer, scratch, out }
}
