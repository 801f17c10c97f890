//! The ratios as a picture: bars on a log scale, in SVG.

use crate::table::ratio;
use std::fmt::Write;

/// A bar: how many times longer another engine takes than the proved one.
#[derive(Clone, Debug)]
pub struct Bar {
    pub label: String,
    pub other: Other,
    pub ratio: f64,
}

/// What the proved engine is compared with.
#[derive(Clone, Copy, PartialEq, Eq, Debug)]
pub enum Other {
    /// Plain enumeration with full evaluation.
    Reference,
    /// The same algorithm in plain Rust.
    Hand,
}

/// How wide and high things are.
const LETTER: f64 = 6.3;
const WIDTH: f64 = 520.0;
const TOP: f64 = 70.0;
const LINE: f64 = 16.0;
const THICK: f64 = 13.0;
const GAP: f64 = 8.0;
const RIGHT: f64 = 90.0;

impl Other {
    /// The color of its bars.
    fn color(self) -> &'static str {
        match self {
            Other::Reference => "#2b6cb0",
            Other::Hand => "#dd8a2e",
        }
    }

    /// What the legend says.
    fn words(self) -> &'static str {
        match self {
            Other::Reference => "plain enumeration ÷ engine",
            Other::Hand => "the same algorithm by hand in Rust ÷ engine",
        }
    }
}

/// The powers of ten that the scale runs between, and where it begins from the left, behind the labels.
struct Scale {
    low: i32,
    high: i32,
    left: f64,
}

impl Scale {
    /// A scale that holds all bars, and 1.
    fn of(bars: &[Bar]) -> Scale {
        let powers = bars.iter().map(|bar| bar.ratio.log10());
        let low = powers.clone().fold(0.0, f64::min).floor();
        let high = powers.fold(1.0, f64::max).ceil();
        let letters = bars.iter().map(|bar| bar.label.chars().count());
        Scale {
            low: low as i32,
            high: high as i32,
            left: 20.0 + LETTER * letters.max().unwrap_or(0) as f64,
        }
    }

    /// Where a ratio stands from the left.
    fn place(&self, ratio: f64) -> f64 {
        let span = f64::from(self.high - self.low);
        self.left + WIDTH * (ratio.log10() - f64::from(self.low)) / span
    }
}

/// The picture of some bars; bars of one label stand together under it.
pub fn picture(bars: &[Bar]) -> String {
    let scale = Scale::of(bars);
    let bottom = tops(bars).last().map_or(TOP, |top| top + LINE);
    let (wide, high) = (scale.left + WIDTH + RIGHT, bottom + 30.0);
    let mut svg = format!(
        "<svg xmlns=\"http://www.w3.org/2000/svg\" viewBox=\"0 0 {wide} {high}\" \
         width=\"{wide}\" height=\"{high}\" font-family=\"sans-serif\" font-size=\"12\">\n\
         <rect width=\"{wide}\" height=\"{high}\" fill=\"#ffffff\"/>\n"
    );
    svg.push_str(&legend(scale.left));
    svg.push_str(&grid(&scale, bottom));
    for (place, top) in tops(bars).enumerate() {
        if begins(bars, place) {
            svg.push_str(&text(
                scale.left - 10.0,
                top + THICK - 2.0,
                "end",
                &bars[place].label,
            ));
        }
        svg.push_str(&drawn(&bars[place], &scale, top));
    }
    svg.push_str("</svg>\n");
    svg
}

/// Whether a bar is the first one of its label.
fn begins(bars: &[Bar], place: usize) -> bool {
    place == 0 || bars[place - 1].label != bars[place].label
}

/// Where each bar stands from the top, with a gap before each label.
fn tops(bars: &[Bar]) -> impl Iterator<Item = f64> + '_ {
    let labels = move |place: usize| (0..=place).filter(|&p| begins(bars, p)).count();
    (0..bars.len()).map(move |place| TOP + LINE * place as f64 + GAP * labels(place) as f64)
}

/// The title, and what the colors are, from a place on.
fn legend(left: f64) -> String {
    let mut svg = text(
        left,
        20.0,
        "start",
        "How many times longer than the proved engine",
    );
    for (place, other) in [Other::Reference, Other::Hand].into_iter().enumerate() {
        let left = left + 200.0 * place as f64;
        let _ = write!(svg, "{}", rect(left, 32.0, 12.0, 12.0, other.color()));
        svg.push_str(&text(left + 18.0, 42.0, "start", other.words()));
    }
    svg
}

/// A line for each power of ten; the one at 1 is dark.
fn grid(scale: &Scale, bottom: f64) -> String {
    let mut svg = String::new();
    for power in scale.low..=scale.high {
        let value = 10_f64.powi(power);
        let x = scale.place(value);
        let color = if power == 0 { "#444444" } else { "#dddddd" };
        let _ = writeln!(
            svg,
            "<line x1=\"{x:.1}\" y1=\"{:.1}\" x2=\"{x:.1}\" y2=\"{bottom:.1}\" stroke=\"{color}\"/>",
            TOP - 6.0
        );
        let words = power_of_ten(power);
        svg.push_str(&text(x, bottom + 16.0, "middle", &words));
    }
    svg
}

/// A power of ten in digits; from a million on in words, so that it fits below its line.
fn power_of_ten(power: i32) -> String {
    match power {
        p if p >= 6 => format!("{} million", power_of_ten(p - 6)),
        0 | 1 => 10_u32.pow(power as u32).to_string(),
        p if p < 0 => 10_f64.powi(p).to_string(),
        p => ratio(10_f64.powi(p)),
    }
}

/// A bar from 1 on, and its ratio.
fn drawn(bar: &Bar, scale: &Scale, top: f64) -> String {
    let (one, end) = (scale.place(1.0), scale.place(bar.ratio));
    let (left, width) = (one.min(end), (end - one).abs().max(1.0));
    let base = top + THICK - 2.0;
    let mut svg = rect(left, top, width, THICK, bar.other.color());
    svg.push_str(&text(one.max(end) + 6.0, base, "start", &ratio(bar.ratio)));
    svg
}

/// A filled rectangle.
fn rect(x: f64, y: f64, width: f64, height: f64, fill: &str) -> String {
    format!(
        "<rect x=\"{x:.1}\" y=\"{y:.1}\" width=\"{width:.1}\" height=\"{height:.1}\" fill=\"{fill}\"/>\n"
    )
}

/// A line of text.
fn text(x: f64, y: f64, anchor: &str, words: &str) -> String {
    let words = words.replace('&', "&amp;").replace('<', "&lt;");
    format!("<text x=\"{x:.1}\" y=\"{y:.1}\" text-anchor=\"{anchor}\">{words}</text>\n")
}
