//! differences [write | huge]: asks the crate, the paper and Pitavele the smallest question of
//! each line of docs/DIFFERENCES.md, and fails if one of them answers otherwise than that line
//! says. The fonts are those of cases/; `write` writes them. `huge` adds the file of four
//! gigabytes, which takes the crate 8.4 gigabytes of memory.
use oracle::bytes::{u16_at, u32_at};
use oracle::differences::{lines, Line};
use oracle::generate::boundaries::{every_second, huge};
use oracle::generate::Case;
use oracle::judge::{judge, lend};
use oracle::original::{self, hush_panics, BUILDS};
use oracle::paper::{self, Request, Rules};
use oracle::port;
use std::fs;
use std::process::ExitCode;

fn main() -> ExitCode {
    hush_panics();
    let word = std::env::args().nth(1).unwrap_or_default();
    let mut good = true;
    println!(
        "{:<18} {:>6} {:>8} {:>5}  {:<26} {:<26}",
        "case", "bytes", "Pitavele", "paper", "crate, release", "crate, checked"
    );
    for line in lines() {
        let file = format!("cases/{}.ttf", line.file);
        if word == "write" {
            fs::write(&file, &line.case.font).expect("cases/ can be written");
        }
        let stored = fs::read(&file).is_ok_and(|font| font == line.case.font);
        good &= ask(&line) && stored;
    }
    if word == "huge" {
        good &= ask_huge();
    }
    ExitCode::from(u8::from(!good))
}

fn ask(line: &Line) -> bool {
    let Case { font, index, ids, .. } = &line.case;
    let judgement = paper::judge(&Request { font, index: *index, ids }, Rules::paper());
    let (mut scratch, mut out) = lend(&judgement, line.case.scratch, line.case.out);
    let left = paper::leave(&judgement, &scratch, &out);
    let answer = port::subset(font, *index, ids, &mut scratch, &mut out);
    let says = BUILDS.map(|build| match original::subset(build, font, *index, ids) {
        Ok(made) => format!("file, {} tables, {} B", u16_at(&made.file, 4).unwrap(), made.file.len()),
        Err(word) => word,
    });
    println!(
        "{:<18} {:>6} {:>8} {:>5}  {:<26} {:<26}",
        line.file,
        font.len(),
        answer.refusal,
        left.answer.refusal,
        says[0],
        says[1]
    );
    let explained = judge(&line.case).complaints.is_empty();
    let same = |i: usize| says[i].starts_with(line.crate_says[i]);
    explained && answer.refusal == line.refusal && left.answer.refusal == line.refusal && same(0) && same(1)
}

/// 32,768 outlines of 131,072 bytes: glyf alone is 2^32 bytes long.
fn ask_huge() -> bool {
    let case = huge(131_072).ask(&every_second());
    let findings = judge(&case);
    println!("huge: font of {} bytes; {}", case.font.len(), findings.kind);
    let Ok(made) = original::subset(original::Build::Release, &case.font, 0, &case.ids) else {
        println!("huge: the crate refuses");
        return false;
    };
    println!("huge: the crate's file has {} bytes; its directory:", made.file.len());
    for record in (0..u16_at(&made.file, 4).unwrap()).map(|i| 12 + 16 * i) {
        let tag = String::from_utf8_lossy(&made.file[record..record + 4]);
        let (offset, length) =
            (u32_at(&made.file, record + 8).unwrap(), u32_at(&made.file, record + 12).unwrap());
        println!("huge: {tag} at {offset}, {length} bytes");
        if tag == "loca" {
            let end = (1 << 32) + offset + length;
            println!(
                "huge: its last two offsets are {:?} and {:?}",
                u32_at(&made.file, end - 8),
                u32_at(&made.file, end - 4)
            );
        }
    }
    findings.complaints.is_empty() && made.file.len() > 0xFFFF_FFFF
}
