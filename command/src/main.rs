//! The press's command. It reads files, lends memory to the proved call and writes files; it
//! decides nothing about fonts.
#![forbid(unsafe_code)]

mod cut;
mod files;
mod ids;
mod trouble;
mod words;

use std::process::ExitCode;
use trouble::Trouble;
use words::Verb;

fn main() -> ExitCode {
    let words: Vec<_> = std::env::args_os().skip(1).collect();
    match words::parse(&words).and_then(run) {
        Ok(()) => ExitCode::SUCCESS,
        Err(trouble) => {
            eprintln!("pitavele: {trouble}");
            ExitCode::from(trouble.status())
        }
    }
}

fn run(verb: Verb) -> Result<(), Trouble> {
    match verb {
        Verb::Help => files::print(words::HELP),
        Verb::Sample => cut::sample(),
        Verb::Cut(job) => cut::cut(&job),
    }
}
