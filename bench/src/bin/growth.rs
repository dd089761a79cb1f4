//! growth: all glyphs of a made font of 1,000 to 65,535; how far the times leave a straight line.
use bench::made::grown;
use bench::rows::{grouped, short};
use bench::subjects::{measure, Job, Times};
use std::process::ExitCode;

const SIZES: [usize; 9] = [1_000, 2_000, 4_000, 8_000, 16_000, 24_000, 32_000, 48_000, 65_535];

fn main() -> ExitCode {
    let mut found: Vec<(f64, Times)> = vec![];
    println!("| glyphs | file, bytes | crate µs | Pitavele µs | floor µs | crate / Pitavele | ns a glyph |");
    println!("|---|---|---|---|---|---|---|");
    for n in SIZES {
        let made = grown(n);
        let job = Job { font: &made.font, index: 0, glyphs: n, ids: &made.ids };
        let Ok(measured) = measure(&job, None).map_err(|why| println!("{}: {why}", made.what)) else {
            return ExitCode::FAILURE;
        };
        let Times { original, port, floor, .. } = measured.times;
        println!(
            "| {} | {} | {} | {} | {} | {:.1} | {:.1} |",
            grouped(n),
            grouped(measured.length),
            short(original),
            short(port),
            short(floor),
            original / port,
            port * 1e3 / n as f64
        );
        found.push((n as f64, measured.times));
    }
    println!("\nWorst deviation from the straight line that fits best, in parts of the line:");
    let of = |time: fn(&Times) -> f64| found.iter().map(|(n, times)| (*n, time(times))).collect::<Vec<_>>();
    println!("Pitavele {}", deviation(&of(|times| times.port)));
    println!("crate    {}", deviation(&of(|times| times.original)));
    println!("floor    {}", deviation(&of(|times| times.floor)));
    ExitCode::SUCCESS
}

/// The line a + b n whose errors, each in parts of its time, have the least squares.
fn deviation(points: &[(f64, f64)]) -> String {
    let sum = |term: fn(f64, f64) -> f64| points.iter().map(|&(n, t)| term(n, t)).sum::<f64>();
    let (one, n1, n2) = (sum(|_, t| 1.0 / t / t), sum(|n, t| n / t / t), sum(|n, t| n * n / t / t));
    let (t1, nt) = (sum(|_, t| 1.0 / t), sum(|n, t| n / t));
    let b = (one * nt - n1 * t1) / (one * n2 - n1 * n1);
    let a = (t1 - b * n1) / one;
    let worst = points
        .iter()
        .map(|&(n, t)| (n, t / (a + b * n) - 1.0))
        .max_by(|x, y| x.1.abs().total_cmp(&y.1.abs()));
    let (n, part) = worst.unwrap();
    format!(
        "{:+.1} % at {} glyphs (line: {a:.1} µs + {:.2} ns a glyph)",
        part * 100.0,
        grouped(n as usize),
        b * 1e3
    )
}
