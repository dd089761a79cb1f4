//! subset: Pitavele's subsets for other readers. Takes lines of FONT, INDEX, FILE and ids, with
//! tabs between; writes each subset to its FILE and prints its roster, or `refused` and why.
use oracle::paper::{self, Request, Rules};
use oracle::port;
use std::fs;
use std::io::stdin;

fn main() {
    for line in stdin().lines() {
        let line = line.expect("lines of text");
        let words: Vec<&str> = line.split('\t').collect();
        let [font, index, file, ids @ ..] = &words[..] else { panic!("FONT, INDEX, FILE, ids: {line}") };
        let font = fs::read(font).expect("FONT can be read");
        let index = index.parse().expect("INDEX is a number");
        let ids: Vec<u16> = ids.iter().map(|id| id.parse().expect("an id is a number")).collect();
        match subset(&font, index, &ids) {
            Ok((roster, small)) => {
                fs::write(file, small).expect("FILE can be written");
                let roster: Vec<String> = roster.iter().map(u16::to_string).collect();
                println!("{}", roster.join(" "));
            }
            Err(refusal) => println!("refused {refusal}"),
        }
    }
}

fn subset(font: &[u8], index: u32, ids: &[u16]) -> Result<(Vec<u16>, Vec<u8>), u32> {
    // The paper says how much room to lend, and nothing else.
    let judgement = paper::judge(&Request { font, index, ids }, Rules::paper());
    let mut scratch = vec![0; 4 * judgement.glyphs.unwrap_or(0)];
    let mut out = vec![0; judgement.outcome.map_or(0, |plan| plan.length())];
    let answer = port::subset(font, index, ids, &mut scratch, &mut out);
    if answer.refusal != 0 {
        return Err(answer.refusal);
    }
    scratch.truncate(answer.count as usize);
    out.truncate(answer.length as usize);
    Ok((scratch, out))
}
