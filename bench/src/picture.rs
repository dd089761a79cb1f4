//! The table as one picture: a row a job, a dot a subject, time on a logarithmic axis.
use crate::rows::{grouped, short, Row};
use std::fmt::Write;

const LEFT: f64 = 230.0;
const RIGHT: f64 = 800.0;
const TOP: f64 = 84.0;
const STEP: f64 = 20.0;
const WIDTH: f64 = 960.0;

const SUBJECTS: [(&str, &str); 4] =
    [("floor", "#9a9a9a"), ("Pitavele", "#0b6e4f"), ("crate", "#c8553d"), ("HarfBuzz", "#3f6fb5")];

/// The axis: powers of ten around every time.
struct Axis {
    low: f64,
    high: f64,
}

impl Axis {
    fn around(rows: &[Row]) -> Axis {
        let times = || rows.iter().flat_map(times).flatten().map(f64::log10);
        Axis { low: times().fold(9.0, f64::min).floor(), high: times().fold(-9.0, f64::max).ceil() }
    }

    fn place(&self, time: f64) -> f64 {
        LEFT + (RIGHT - LEFT) * (time.log10() - self.low) / (self.high - self.low)
    }
}

fn times(row: &Row) -> [Option<f64>; 4] {
    let all = row.times;
    [Some(all.floor), Some(all.port), Some(all.original), all.harfbuzz]
}

pub fn draw(rows: &[Row]) -> String {
    let axis = Axis::around(rows);
    let bottom = TOP + STEP * (rows.len() as f64 + gaps(rows) as f64 * 0.5);
    let height = bottom + 30.0;
    let mut svg = format!(
        "<svg xmlns=\"http://www.w3.org/2000/svg\" viewBox=\"0 0 {WIDTH} {height}\" \
         font-family=\"sans-serif\" font-size=\"12\" fill=\"#222\">\n\
         <title>Time of one cut: floor, Pitavele, crate, HarfBuzz</title>\n\
         <rect width=\"{WIDTH}\" height=\"{height}\" fill=\"#fff\"/>\n\
         <text x=\"12\" y=\"26\" font-size=\"16\" font-weight=\"bold\">Time of one cut</text>\n"
    );
    legend(&mut svg);
    grid(&mut svg, &axis, bottom);
    let mut y = TOP + STEP / 2.0;
    for (i, row) in rows.iter().enumerate() {
        if i > 0 && rows[i - 1].font != row.font {
            y += STEP * 0.5;
        }
        let first = i == 0 || rows[i - 1].font != row.font;
        line(&mut svg, &axis, row, first, y);
        y += STEP;
    }
    svg + "</svg>\n"
}

fn gaps(rows: &[Row]) -> usize {
    rows.windows(2).filter(|pair| pair[0].font != pair[1].font).count()
}

fn legend(svg: &mut String) {
    let mut x = LEFT;
    for (name, colour) in SUBJECTS {
        writeln!(svg, "<circle cx=\"{x}\" cy=\"22\" r=\"5\" fill=\"{colour}\"/>").unwrap();
        writeln!(svg, "<text x=\"{}\" y=\"26\">{name}</text>", x + 10.0).unwrap();
        x += 100.0;
    }
    let text = "font (glyphs) and ids asked for";
    writeln!(svg, "<text x=\"12\" y=\"{}\" fill=\"#666\">{text}</text>", TOP - 14.0).unwrap();
    let at = format!("x=\"{}\" y=\"{}\"", WIDTH - 12.0, TOP - 14.0);
    writeln!(svg, "<text {at} text-anchor=\"end\" fill=\"#666\">crate / Pitavele</text>").unwrap();
}

fn grid(svg: &mut String, axis: &Axis, bottom: f64) {
    for power in axis.low as i32..=axis.high as i32 {
        let time = 10f64.powi(power);
        let x = axis.place(time);
        writeln!(svg, "<path d=\"M{x:.1} {TOP}V{bottom}\" stroke=\"#ddd\"/>").unwrap();
        let label = match power {
            ..3 => format!("{time} µs"),
            3..6 => format!("{} ms", time / 1e3),
            _ => format!("{} s", time / 1e6),
        };
        for y in [TOP - 14.0, bottom + 16.0] {
            let at = format!("x=\"{x:.1}\" y=\"{y}\"");
            writeln!(svg, "<text {at} text-anchor=\"middle\" fill=\"#666\">{label}</text>").unwrap();
        }
    }
}

fn line(svg: &mut String, axis: &Axis, row: &Row, first: bool, y: f64) {
    if first {
        let name = row.font.rsplit_once('.').map_or(&*row.font, |(stem, _)| stem);
        let name = name.trim_end_matches("-Regular");
        writeln!(svg, "<text x=\"12\" y=\"{}\">{name} ({})</text>", y + 4.0, grouped(row.glyphs)).unwrap();
    }
    let at = format!("x=\"{}\" y=\"{}\"", LEFT - 10.0, y + 4.0);
    writeln!(svg, "<text {at} text-anchor=\"end\">{}</text>", row.list()).unwrap();
    let (from, to) = (axis.place(row.times.port), axis.place(row.times.original));
    writeln!(
        svg,
        "<path d=\"M{from:.1} {y}H{to:.1}\" stroke=\"#c8553d\" stroke-opacity=\".35\" stroke-width=\"4\"/>"
    )
    .unwrap();
    for ((name, colour), time) in SUBJECTS.iter().zip(times(row)) {
        let Some(time) = time else { continue };
        let (x, label) = (axis.place(time), short(time));
        let dot = format!("<circle cx=\"{x:.1}\" cy=\"{y}\" r=\"5\" fill=\"{colour}\">");
        writeln!(svg, "{dot}<title>{name}: {label} µs</title></circle>").unwrap();
    }
    let at = format!("x=\"{}\" y=\"{}\"", WIDTH - 12.0, y + 4.0);
    writeln!(svg, "<text {at} text-anchor=\"end\" font-weight=\"bold\">{:.1}</text>", row.crate_ratio())
        .unwrap();
}
