//! record FILE: some hundreds of the crate's answers as one file that a program without a heap
//! can read from front to back; README.md has the format.
use oracle::bytes::push32;
use oracle::differences::lines;
use oracle::generate::{boundaries, case, Case};
use oracle::judge::lend;
use oracle::original::{self, hush_panics, Build};
use oracle::paper::{self, Request, Rules};
use std::collections::BTreeMap;
use std::fs;

/// What the program that replays them lends.
const FONT: usize = 32_768;
const IDS: usize = 1_024;
const SCRATCH: usize = 8_192;
const OUT: usize = 32_768;

const SEED: u64 = 5;
const GENERATED: u64 = 300;
const LARGEST: usize = 1_000_000;

fn main() {
    hush_panics();
    let file = std::env::args().nth(1).expect("record FILE");
    let differences = lines().into_iter().map(|line| (line.file.to_string(), line.case));
    let fixed = boundaries::small().into_iter().chain(boundaries::wide()).chain(differences);
    let generated = (0..GENERATED).map(|number| (format!("seed {SEED} case {number}"), case(SEED, number)));
    let (mut records, mut count) = (vec![], 0);
    let mut tally = BTreeMap::new();
    for (name, case) in fixed.chain(generated) {
        if case.font.len() > FONT || case.ids.len() > IDS {
            println!("too large to record: {name}");
            continue;
        }
        let refusal = record(&case, &mut records);
        *tally.entry(refusal).or_insert(0) += 1;
        count += 1;
    }
    let mut bytes = b"PVL1".to_vec();
    push32(&mut bytes, count);
    bytes.extend(records);
    assert!(bytes.len() <= LARGEST, "{} bytes", bytes.len());
    fs::write(&file, &bytes).expect("FILE can be written");
    println!("{count} answers, {} bytes; by refusal, 0 for a file: {tally:?}", bytes.len());
}

/// One record; its refusal.
fn record(case: &Case, records: &mut Vec<u8>) -> u32 {
    let Case { font, index, ids, .. } = case;
    let judgement = paper::judge(&Request { font, index: *index, ids }, Rules::paper());
    let (mut scratch, mut out) = lend(&judgement, case.scratch, case.out);
    scratch.truncate(SCRATCH);
    out.truncate(OUT);
    let answer = paper::leave(&judgement, &scratch, &out).answer;
    let places = 4 * judgement.glyphs.unwrap_or(0);
    let zeroed = if answer.refusal == 8 { 0 } else { places };
    let header = [*index as usize, ids.len(), scratch.len(), out.len(), font.len()];
    let answered = [answer.refusal as usize, answer.count as usize, answer.length as usize, zeroed];
    header.into_iter().chain(answered).for_each(|field| push32(records, field));
    records.extend(ids.iter().flat_map(|id| id.to_be_bytes()));
    records.extend(font);
    if let Ok(plan) = &judgement.outcome {
        // The bytes are the crate's.
        let Ok(made) = original::subset(Build::Release, font, *index, ids) else {
            panic!("the crate refuses")
        };
        assert!(made == plan.make(), "the crate's answer isn't the paper's");
        if answer.refusal == 0 {
            records.extend(made.roster.iter().flat_map(|id| id.to_be_bytes()));
            records.extend(made.file);
        }
    }
    answer.refusal
}
