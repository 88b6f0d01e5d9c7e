//! A chart of whole frames: for each setting a bar a way, as long as its best time to that of the Rust.

use crate::measure::Times;
use std::fmt::Write;

/// The times of one case, way by way.
pub struct Measured {
    pub set: String,
    pub ways: Vec<(&'static str, Times)>,
}

/// In pixels: where the bars begin, how long that of the Rust is, how high a bar is, and how far apart two cases begin.
const LEFT: f64 = 150.0;
const LONG: f64 = 360.0;
const HIGH: f64 = 16.0;
const APART: f64 = 76.0;
const TOP: f64 = 44.0;

/// A colour for each way, in their order.
const COLOURS: [&str; 3] = ["#2b6cb0", "#a0aec0", "#cbd5e0"];

pub fn svg(cases: &[Measured]) -> String {
    let height = TOP + APART * cases.len() as f64 + 8.0;
    let mut text = format!(
        "<svg xmlns=\"http://www.w3.org/2000/svg\" width=\"760\" height=\"{height}\" font-family=\"sans-serif\" font-size=\"12\">\n\
         <rect width=\"760\" height=\"{height}\" fill=\"white\"/>\n\
         <text x=\"10\" y=\"20\" font-size=\"14\">Whole frames, ns a sample by best; bars to the Rust's; noise at most {:.2}</text>\n",
        noise(cases)
    );
    for (place, case) in cases.iter().enumerate() {
        add_case(&mut text, TOP + APART * place as f64, case);
    }
    text + "</svg>\n"
}

/// The greatest median/best.
fn noise(cases: &[Measured]) -> f64 {
    let of = |(_, times): &(&str, Times)| times.median / times.best;
    cases
        .iter()
        .flat_map(|case| case.ways.iter().map(of))
        .fold(1.0, f64::max)
}

fn add_case(text: &mut String, top: f64, case: &Measured) {
    let rust = case.ways[1].1.best;
    let middle = top + 1.5 * HIGH + 4.0;
    writeln!(text, "<text x=\"10\" y=\"{middle}\">{}</text>", case.set).expect("a string takes it");
    for (place, (name, times)) in case.ways.iter().enumerate() {
        let ratio = times.best / rust;
        let (y, long) = (top + HIGH * place as f64, LONG * ratio);
        let (end, line) = (LEFT + long + 6.0, y + HIGH - 4.0);
        writeln!(
            text,
            "<rect x=\"{LEFT}\" y=\"{y}\" width=\"{long:.1}\" height=\"{}\" fill=\"{}\"/>\n\
             <text x=\"{end:.1}\" y=\"{line}\">{name} {:.1} ({ratio:.2})</text>",
            HIGH - 2.0,
            COLOURS[place],
            times.best
        )
        .expect("a string takes it");
    }
}
