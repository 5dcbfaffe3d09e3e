//! The plot: time of one call against the number of its literals, both axes logarithmic, one line a side.

use std::fmt::Write;

use crate::groups::commas;

const WIDTH: f64 = 760.0;
const HEIGHT: f64 = 560.0;
const LEFT: f64 = 84.0;
const RIGHT: f64 = 736.0;
const TOP: f64 = 48.0;
const BOTTOM: f64 = 492.0;

/// The sides as the legend has them, in the order of `sides::NAMES`.
const LEGEND: [&str; 4] = ["library", "Rust, records to records", "Rust, call alone", "plain C loop"];

/// Colour, width and dashes of each side, in the order of `sides::NAMES`; told apart without colour too.
const LINES: [(&str, &str, &str); 4] =
    [("#0072b2", "3", "none"), ("#d55e00", "2", "none"), ("#b05a8c", "2", "8 4"), ("#007a5a", "2", "2 4")];

/// One number of literals, and the nanoseconds of one call by each side.
pub struct Point {
    pub literals: usize,
    pub ns: Vec<f64>,
}

/// The decades that an axis goes over.
struct Axis {
    from: f64,
    to: f64,
    /// where its two ends are drawn
    ends: (f64, f64),
}

impl Axis {
    fn at(&self, number: f64) -> f64 {
        let part = (number.log10() - self.from) / (self.to - self.from);
        self.ends.0 + part * (self.ends.1 - self.ends.0)
    }
}

/// The whole file.
pub fn svg(title: &str, points: &[Point]) -> String {
    let x = Axis { from: 0.5, to: 5.0, ends: (LEFT, RIGHT) };
    let times = || points.iter().flat_map(|p| p.ns.iter().map(|ns| ns.log10()));
    let (least, most) = (times().fold(f64::MAX, f64::min).floor(), times().fold(0.0, f64::max).ceil());
    let y = Axis { from: least, to: most, ends: (BOTTOM, TOP) };
    let mut out = format!(
        "<svg xmlns=\"http://www.w3.org/2000/svg\" viewBox=\"0 0 {WIDTH} {HEIGHT}\" width=\"{WIDTH}\" height=\"{HEIGHT}\" \
         font-family=\"sans-serif\" font-size=\"13\" fill=\"#222\">\n<title>{title}</title>\n\
         <rect width=\"{WIDTH}\" height=\"{HEIGHT}\" fill=\"white\"/>\n\
         <text x=\"{LEFT}\" y=\"28\" font-size=\"15\">{title}</text>\n"
    );
    out += &axes(&x, &y, points);
    for side in 0..LINES.len() {
        out += &line(side, &x, &y, points);
    }
    out + &legend() + "</svg>\n"
}

/// A grid line with its number for each size and for each decade of time, and what the axes are.
fn axes(x: &Axis, y: &Axis, points: &[Point]) -> String {
    let mut grid = String::from("<g stroke=\"#ccc\">\n");
    let mut numbers = String::from("<g text-anchor=\"middle\">\n");
    for point in points {
        let at = x.at(point.literals as f64);
        let _ = writeln!(grid, "<path d=\"M{at:.1} {TOP}V{BOTTOM}\"/>");
        let _ = writeln!(numbers, "<text x=\"{at:.1}\" y=\"{}\">{}</text>", BOTTOM + 20.0, commas(point.literals));
    }
    numbers += "</g>\n<g text-anchor=\"end\">\n";
    for decade in y.from as i32..=y.to as i32 {
        let at = y.at(10f64.powi(decade));
        let _ = writeln!(grid, "<path d=\"M{LEFT} {at:.1}H{RIGHT}\"/>");
        let _ = writeln!(numbers, "<text x=\"{}\" y=\"{:.1}\">{}</text>", LEFT - 8.0, at + 4.5, time(decade));
    }
    let (across, down) = ((LEFT + RIGHT) / 2.0, (TOP + BOTTOM) / 2.0);
    format!(
        "{grid}</g>\n{numbers}</g>\n<text x=\"{across}\" y=\"{}\" text-anchor=\"middle\">literals in one call</text>\n\
         <text transform=\"translate(20 {down}) rotate(-90)\" text-anchor=\"middle\">processor time of one call</text>\n",
        BOTTOM + 46.0
    )
}

/// 10 to the `decade` nanoseconds.
fn time(decade: i32) -> String {
    let unit = ["ns", "µs", "ms", "s"][(decade / 3).clamp(0, 3) as usize];
    format!("{} {unit}", 10u64.pow((decade - 3 * (decade / 3).clamp(0, 3)) as u32))
}

fn line(side: usize, x: &Axis, y: &Axis, points: &[Point]) -> String {
    let places: Vec<(f64, f64)> = points.iter().map(|p| (x.at(p.literals as f64), y.at(p.ns[side]))).collect();
    let corners: Vec<String> = places.iter().map(|(x, y)| format!("{x:.1},{y:.1}")).collect();
    let dots: String = places.iter().map(|(x, y)| format!("<circle cx=\"{x:.1}\" cy=\"{y:.1}\" r=\"4\"/>")).collect();
    let (colour, width, dashes) = LINES[side];
    format!(
        "<!-- {} -->\n<polyline points=\"{}\" fill=\"none\" stroke=\"{colour}\" stroke-width=\"{width}\" \
         stroke-dasharray=\"{dashes}\"/>\n<g fill=\"{colour}\">{dots}</g>\n",
        LEGEND[side],
        corners.join(" ")
    )
}

/// At the upper left, which the lines leave free: they rise to the right.
fn legend() -> String {
    let mut out = format!(
        "<rect x=\"{}\" y=\"{}\" width=\"226\" height=\"98\" fill=\"white\" stroke=\"#888\"/>\n",
        LEFT + 12.0,
        TOP + 12.0
    );
    for (side, (colour, width, dashes)) in LINES.iter().enumerate() {
        let (from, at) = (LEFT + 24.0, TOP + 30.0 + 21.0 * side as f64);
        let _ = writeln!(
            out,
            "<path d=\"M{from} {at}h36\" stroke=\"{colour}\" stroke-width=\"{width}\" stroke-dasharray=\"{dashes}\"/>\
             <circle cx=\"{}\" cy=\"{at}\" r=\"4\" fill=\"{colour}\"/>\
             <text x=\"{}\" y=\"{}\">{}</text>",
            from + 18.0,
            from + 46.0,
            at + 4.5,
            LEGEND[side]
        );
    }
    out
}
