//! One case, judged: Pitavele against the paper, exactly; the crate against the paper, on the
//! domain exactly and off it by the causes of docs/DIFFERENCES.md.
use crate::generate::{Case, Room};
use crate::original::{self, Build, Made, BUILDS};
use crate::paper::{self, Cause, Judgement, Request, Rules};
use crate::port;

/// The crate isn't asked for files longer than this: it would hold them in memory twice.
const CRATE_LIMIT: usize = 1 << 28;

#[derive(Default)]
pub struct Findings {
    /// What kind of case it was, for the tally.
    pub kind: String,
    /// The causes by which the crate differs, build by build.
    pub causes: Vec<(Build, Cause)>,
    /// Whatever nothing explains.
    pub complaints: Vec<String>,
}

pub fn judge(case: &Case) -> Findings {
    let request = Request { font: &case.font, index: case.index, ids: &case.ids };
    let judgement = paper::judge(&request, Rules::paper());
    let mut findings = Findings::default();
    let number = judge_port(case, &judgement, &mut findings);
    let mut words = vec![];
    for build in BUILDS {
        let word = match judge_crate(&request, &judgement, build, &mut findings) {
            Some(word) => word,
            None => "not asked".to_string(),
        };
        words.push(word);
    }
    let outcome = judgement.outcome.as_ref().map_or_else(|why| why.to_string(), |_| "file".to_string());
    findings.kind =
        format!("paper {outcome}, in these rooms {number}, release {}, checked {}", words[0], words[1]);
    findings
}

/// Slices as lent: every place differs from its neighbours, so that no write goes unseen.
pub fn lend(judgement: &Judgement, scratch: Room, out: Room) -> (Vec<u16>, Vec<u8>) {
    let scratch_need = 4 * judgement.glyphs.unwrap_or(3);
    let out_need = judgement.outcome.as_ref().map_or(40, |plan| plan.length());
    let out_length = out.length(out_need).min(CRATE_LIMIT);
    let scratch = (0..scratch.length(scratch_need)).map(|i| (40_503 * i + 1) as u16).collect();
    let out = (0..out_length).map(|i| (167 * i + 1) as u8).collect();
    (scratch, out)
}

/// Pitavele's answer, scratch and output must be the paper's. The paper's number in these rooms.
fn judge_port(case: &Case, judgement: &Judgement, findings: &mut Findings) -> u32 {
    let (mut scratch, mut out) = lend(judgement, case.scratch, case.out);
    let expected = paper::leave(judgement, &scratch, &out);
    let answer = port::subset(&case.font, case.index, &case.ids, &mut scratch, &mut out);
    let mut complain = |what: String| findings.complaints.push(format!("Pitavele: {what}"));
    if answer != expected.answer {
        complain(format!("{answer:?}, the paper says {:?}", expected.answer));
    }
    if let Some(place) = first_difference(&scratch, &expected.scratch) {
        complain(format!("scratch differs from place {place} on"));
    }
    if let Some(place) = first_difference(&out, &expected.out) {
        complain(format!("output differs from byte {place} on"));
    }
    expected.answer.refusal
}

fn first_difference<T: PartialEq>(a: &[T], b: &[T]) -> Option<usize> {
    a.iter().zip(b).position(|(a, b)| a != b)
}

/// The crate's answer in a word, or None if it wasn't asked.
fn judge_crate(
    request: &Request,
    judgement: &Judgement,
    build: Build,
    findings: &mut Findings,
) -> Option<String> {
    let by_crate_rules = match judgement.outcome {
        Ok(_) => None,
        Err(_) => Some(paper::judge(request, Rules::of(build))),
    };
    let expected = by_crate_rules.as_ref().unwrap_or(judgement);
    if expected.outcome.as_ref().is_ok_and(|plan| plan.length() > CRATE_LIMIT) {
        return None;
    }
    let given = original::subset(build, request.font, request.index, request.ids);
    let explanation = match (&expected.outcome, &given) {
        (Ok(plan), Ok(made)) => same_file(&plan.make(), made).map(|()| expected.causes.clone()),
        (Ok(_), Err(word)) => Err(format!("{word}, a file was expected")),
        (Err(number), Ok(_)) => Err(format!("a file, refusal {number} was expected")),
        (Err(number), Err(word)) => refusal_causes(build, *number, word, &expected.causes),
    };
    match explanation {
        Ok(causes) => findings.causes.extend(causes.into_iter().map(|cause| (build, cause))),
        Err(complaint) => findings.complaints.push(format!("crate, {build:?}: {complaint}")),
    }
    Some(given.map_or_else(|word| word, |_| "file".to_string()))
}

fn same_file(expected: &Made, given: &Made) -> Result<(), String> {
    if given.roster != expected.roster {
        return Err(format!("roster {:?}, expected {:?}", given.roster, expected.roster));
    }
    if given.file != expected.file {
        let place = first_difference(&given.file, &expected.file);
        return Err(format!(
            "bytes differ from {place:?} on, lengths {} and {}",
            given.file.len(),
            expected.file.len()
        ));
    }
    Ok(())
}

/// Why the crate's error isn't the one that document 01 names beside this refusal.
fn refusal_causes(build: Build, number: u32, word: &str, met: &[Cause]) -> Result<Vec<Cause>, String> {
    let of =
        |causes: &[Cause]| met.iter().copied().filter(|cause| causes.contains(cause)).collect::<Vec<_>>();
    let causes = match (number, word) {
        (1, "UnknownKind") | (3, "MalformedFont") | (4, "SubsetError") | (5, "OverflowError") => {
            return Ok(vec![])
        }
        // CFFError is the stub's.
        (2, "UnknownKind" | "CFFError" | "Unimplemented") => return Ok(vec![]),
        // At the requests, before the font is looked at, or in a closure that goes on past
        // unreadable outlines: whatever the paper has refused before.
        (_, "panic: remapper was overflowed") => vec![Cause::GlyphCount],
        (3, "OverflowError") => of(&[Cause::TestOrder]),
        (4 | 5, "panic: attempt to add with overflow" | "panic: attempt to multiply with overflow")
            if build == Build::Checked =>
        {
            of(&[Cause::NameStorage, Cause::NameRecords, Cause::NameSum])
        }
        _ => vec![],
    };
    if causes.is_empty() {
        return Err(format!("{word}, refusal {number} was expected"));
    }
    Ok(causes)
}
