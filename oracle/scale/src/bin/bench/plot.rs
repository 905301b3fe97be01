//! The ratios of the searches as bars, in plain SVG on a logarithmic axis.

use crate::searches::Measured;
use std::fmt::Write;

const LEFT: f64 = 330.0;
const WIDTH: f64 = 560.0;
const STEP: f64 = 18.0;
const TOP: f64 = 50.0;
/// The axis, as powers of ten.
const LOW: f64 = -3.0;
const HIGH: f64 = 2.0;

/// Where a ratio stands on the axis.
fn across(ratio: f64) -> f64 {
    LEFT + WIDTH * (ratio.log10().clamp(LOW, HIGH) - LOW) / (HIGH - LOW)
}

fn line(out: &mut String, ratio: f64, bottom: f64, colour: &str) {
    let x = across(ratio);
    let y = TOP - 6.0;
    let drawn = writeln!(
        out,
        "<line x1=\"{x:.1}\" y1=\"{y}\" x2=\"{x:.1}\" y2=\"{bottom}\" stroke=\"{colour}\"/>\
         <text x=\"{x:.1}\" y=\"{:.1}\" text-anchor=\"middle\" fill=\"{colour}\">{ratio}</text>",
        y - 4.0
    );
    drawn.expect("a string takes all");
}

fn bar(out: &mut String, y: f64, row: &Measured) {
    let (from, to) = (across(1.0).min(across(row.ratio())), across(1.0).max(across(row.ratio())));
    let (colour, cache) = if row.cache { ("#2b6cb0", "cache") } else { ("#dd8a2f", "no cache") };
    let drawn = writeln!(
        out,
        "<text x=\"{:.1}\" y=\"{:.1}\" text-anchor=\"end\">{}, {cache}</text>\
         <rect x=\"{from:.1}\" y=\"{:.1}\" width=\"{:.1}\" height=\"{:.1}\" fill=\"{colour}\"/>\
         <text x=\"{:.1}\" y=\"{:.1}\">{:.3}</text>",
        LEFT - 6.0,
        y + STEP - 6.0,
        row.name,
        y + 2.0,
        to - from,
        STEP - 4.0,
        to + 4.0,
        y + STEP - 6.0,
        row.ratio()
    );
    drawn.expect("a string takes all");
}

pub fn svg(rows: &[Measured], costly: f64) -> String {
    let bottom = TOP + STEP * rows.len() as f64;
    let (width, height) = (LEFT + WIDTH + 50.0, bottom + 12.0);
    let mut out = format!(
        "<svg xmlns=\"http://www.w3.org/2000/svg\" width=\"{width}\" height=\"{height}\" font-family=\"sans-serif\" \
         font-size=\"11\">\n<rect width=\"{width}\" height=\"{height}\" fill=\"white\"/>\n\
         <text x=\"8\" y=\"16\" font-size=\"13\">Visits a second, library over Rust; geometric mean of the costly families {costly:.2}</text>\n"
    );
    for ratio in [0.001, 0.01, 0.1, 1.0, 1.5, 5.0, 10.0, 100.0] {
        let colour = if ratio == 1.5 || ratio == 5.0 { "#c05050" } else { "#999999" };
        line(&mut out, ratio, bottom, colour);
    }
    for (place, row) in rows.iter().enumerate() {
        bar(&mut out, TOP + STEP * place as f64, row);
    }
    out.push_str("</svg>\n");
    out
}
