//! compare SEED COUNT [FIRST]: the boundary cases, then COUNT generated ones from number FIRST on.
use oracle::generate::{boundaries, case};
use oracle::judge::judge;
use oracle::original::hush_panics;
use oracle::report::Report;
use std::process::ExitCode;

fn main() -> ExitCode {
    hush_panics();
    let words: Vec<u64> = std::env::args().skip(1).map_while(|word| word.parse().ok()).collect();
    let (seed, count, first) = match words[..] {
        [seed, count] => (seed, count, 0),
        [seed, count, first] => (seed, count, first),
        _ => {
            eprintln!("compare SEED COUNT [FIRST]");
            return ExitCode::from(2);
        }
    };
    let mut report = Report::default();
    for (name, case) in boundaries::all() {
        report.add(&name, &case, judge(&case));
    }
    for number in first..first + count {
        let case = case(seed, number);
        report.add(&format!("seed {seed} case {number}"), &case, judge(&case));
    }
    report.print()
}
