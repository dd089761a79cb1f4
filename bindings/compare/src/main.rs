//! compare FOLDER..: the same calls on both crates, on every TrueType font below the folders.
mod errors;
mod fonts;
mod remappers;

use std::path::Path;
use std::process::ExitCode;

fn main() -> ExitCode {
    std::panic::set_hook(Box::new(|info| {
        // The remappers' panics are answers; ours are failures.
        if info.location().is_some_and(|place| place.file().starts_with("src/")) {
            eprintln!("{info}");
        }
    }));
    println!("errors: {} names, the same texts", errors::compare());
    println!("remappers: {} calls, the same answers", remappers::compare());
    let files: Vec<_> = std::env::args().skip(1).flat_map(|folder| fonts::find(Path::new(&folder))).collect();
    let calls: Vec<_> = files.iter().map(|file| fonts::compare(file)).collect();
    let truetype = calls.iter().filter(|&&calls| calls > 0).count();
    println!(
        "fonts: {} files, {truetype} of them TrueType, {} calls, the same answers",
        files.len(),
        calls.iter().sum::<usize>()
    );
    if truetype == 0 {
        eprintln!("compare: no TrueType font in these folders");
        return ExitCode::FAILURE;
    }
    ExitCode::SUCCESS
}
