//! crafted: fonts made to ask for the most work; time, and time for each byte read or written. Fails if
//! one is below the bar for any font.
use bench::bars::LEAST;
use bench::made::crafted;
use bench::rows::{grouped, short};
use bench::subjects::{measure, Job};
use std::process::ExitCode;

fn main() -> ExitCode {
    let (mut wrong, mut behind) = (0, 0);
    println!("| made font | font, bytes | file, bytes | crate µs | Pitavele µs | floor µs | crate / Pitavele | ns a byte of font and file |");
    println!("|---|---|---|---|---|---|---|---|");
    for made in crafted() {
        let job = Job { font: &made.font, index: 0, glyphs: made.glyphs, ids: &made.ids };
        let measured = match measure(&job, None) {
            Ok(measured) => measured,
            Err(why) => {
                println!("{}: {why}", made.what);
                wrong += 1;
                continue;
            }
        };
        let times = measured.times;
        behind += usize::from(times.original / times.port < LEAST);
        println!(
            "| {} | {} | {} | {} | {} | {} | {:.3} | {:.2} |",
            made.what,
            grouped(made.font.len()),
            grouped(measured.length),
            short(times.original),
            short(times.port),
            short(times.floor),
            times.original / times.port,
            times.port * 1e3 / (made.font.len() + measured.length) as f64
        );
    }
    println!("\n{wrong} files aren't the crate's, {behind} fonts below {LEAST}");
    ExitCode::from(u8::from(wrong + behind > 0))
}
