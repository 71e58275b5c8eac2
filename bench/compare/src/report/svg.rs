//! Shapes of a plot, as SVG text.

use std::fmt::Write;

pub struct Svg {
    text: String,
}

/// Where a text's place is in it.
#[derive(Clone, Copy)]
pub enum Anchor {
    Start,
    Middle,
    End,
}

impl Anchor {
    fn name(self) -> &'static str {
        match self {
            Anchor::Start => "start",
            Anchor::Middle => "middle",
            Anchor::End => "end",
        }
    }
}

pub const INK: &str = "#222222";
pub const FAINT: &str = "#dddddd";

impl Svg {
    pub fn new(width: f64, height: f64) -> Svg {
        let mut svg = Svg { text: String::new() };
        svg.add(&format!(
            r#"<svg xmlns="http://www.w3.org/2000/svg" width="{width}" height="{height}" viewBox="0 0 {width} {height}" font-family="sans-serif">"#
        ));
        svg.rect((0.0, 0.0), (width, height), "#ffffff");
        svg
    }

    fn add(&mut self, line: &str) {
        writeln!(self.text, "{line}").expect("a string takes all");
    }

    pub fn rect(&mut self, (x, y): (f64, f64), (width, height): (f64, f64), fill: &str) {
        self.add(&format!(r#"<rect x="{x:.1}" y="{y:.1}" width="{width:.1}" height="{height:.1}" fill="{fill}"/>"#));
    }

    pub fn line(&mut self, (x1, y1): (f64, f64), (x2, y2): (f64, f64), colour: &str, width: f64) {
        self.add(&format!(
            r#"<line x1="{x1:.1}" y1="{y1:.1}" x2="{x2:.1}" y2="{y2:.1}" stroke="{colour}" stroke-width="{width}"/>"#
        ));
    }

    /// A line through points, with a mark at each: filled and whole, or empty and dashed.
    pub fn curve(&mut self, points: &[(f64, f64)], colour: &str, is_dashed: bool) {
        let places: String = points.iter().map(|(x, y)| format!("{x:.1},{y:.1} ")).collect();
        let (dash, fill) = if is_dashed { (r#" stroke-dasharray="6 4""#, "#ffffff") } else { ("", colour) };
        self.add(&format!(
            r#"<polyline points="{}" fill="none" stroke="{colour}" stroke-width="2"{dash}/>"#,
            places.trim_end()
        ));
        for (x, y) in points {
            self.add(&format!(
                r#"<circle cx="{x:.1}" cy="{y:.1}" r="3.2" fill="{fill}" stroke="{colour}" stroke-width="1.5"/>"#
            ));
        }
    }

    pub fn text(&mut self, (x, y): (f64, f64), size: f64, anchor: Anchor, text: &str) {
        let anchor = anchor.name();
        self.add(&format!(
            r#"<text x="{x:.1}" y="{y:.1}" font-size="{size}" text-anchor="{anchor}" fill="{INK}">{}</text>"#,
            escaped(text)
        ));
    }

    /// Reads from below to above.
    pub fn upright(&mut self, (x, y): (f64, f64), size: f64, anchor: Anchor, text: &str) {
        let anchor = anchor.name();
        self.add(&format!(
            r#"<text transform="translate({x:.1} {y:.1}) rotate(-90)" font-size="{size}" text-anchor="{anchor}" fill="{INK}">{}</text>"#,
            escaped(text)
        ));
    }

    pub fn end(mut self) -> String {
        self.add("</svg>");
        self.text
    }
}

fn escaped(text: &str) -> String {
    text.replace('&', "&amp;").replace('<', "&lt;")
}

/// Numbers on a line of the plot, by their logarithm.
pub struct Scale {
    pub least: f64,
    pub most: f64,
    /// Where these two stand.
    pub from: f64,
    pub to: f64,
}

impl Scale {
    /// All of these numbers are within, with some room; the ends are powers of the root of ten.
    pub fn around(numbers: impl Iterator<Item = f64>, from: f64, to: f64) -> Scale {
        let ends = numbers.fold((f64::MAX, f64::MIN), |(least, most), number| (number.min(least), number.max(most)));
        let power = |number: f64, round: fn(f64) -> f64| 10f64.powf(round(2.0 * number.log10()) / 2.0);
        Scale { least: power(ends.0, f64::floor), most: power(ends.1, f64::ceil), from, to }
    }

    pub fn place(&self, number: f64) -> f64 {
        let share = (number / self.least).ln() / (self.most / self.least).ln();
        self.from + share.clamp(0.0, 1.0) * (self.to - self.from)
    }

    /// The powers of ten within.
    pub fn powers(&self) -> impl Iterator<Item = f64> {
        // A power that is an end may come out a little off.
        let (least, most) = (self.least.log10() - 1e-9, self.most.log10() + 1e-9);
        (least.ceil() as i32..=most.floor() as i32).map(|power| 10f64.powi(power))
    }
}

/// A number as it stands at an axis.
pub fn plain(number: f64) -> String {
    if number < 1.0 {
        return format!("{number}");
    }
    let digits = format!("{number:.0}");
    let mut text = String::new();
    for (i, digit) in digits.chars().enumerate() {
        if i > 0 && (digits.len() - i) % 3 == 0 {
            text.push(',');
        }
        text.push(digit);
    }
    text
}
