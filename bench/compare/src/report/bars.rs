//! The bars: each side's time as a multiple of the proved library's.

use super::svg::{plain, Anchor, Scale, Svg, FAINT, INK};
use super::Report;
use crate::sides::{NAMES, PROVED};

const LEFT: f64 = 70.0;
const TOP: f64 = 84.0;
const BOTTOM: f64 = 390.0;
const GROUP: f64 = 108.0;
const BAR: f64 = 15.0;

/// One for each side but the proved library, and one for a reading of all bytes.
const COLOURS: [&str; NAMES.len()] = ["#0072B2", "#56B4E9", "#D55E00", "#E69F00", "#009E73", "#CC79A7", "#999999"];
const READING: &str = "one reading of the bytes (audit only)";

/// Bars that stand together: a colour and a ratio each.
struct Group {
    name: &'static str,
    bars: Vec<(&'static str, f64)>,
}

/// The width that all groups take, with room at both sides.
pub fn width(report: &Report) -> f64 {
    LEFT + GROUP * groups(report).len() as f64 + 20.0
}

fn groups(report: &Report) -> Vec<Group> {
    let sides = || NAMES[1..].iter().zip(COLOURS);
    let mut all: Vec<Group> = Vec::new();
    for row in report.rows.iter().filter(|row| row.time(PROVED).is_some()) {
        let bars = sides().filter_map(|(side, colour)| Some((colour, row.ratio(side, PROVED)?))).collect();
        all.push(Group { name: row.name, bars });
    }
    let audit = &report.audits[0];
    let bars = vec![(COLOURS[0], audit.twin / audit.proved), (COLOURS[NAMES.len() - 1], audit.reading / audit.proved)];
    all.push(Group { name: "audit", bars });
    all
}

pub fn draw(svg: &mut Svg, report: &Report) {
    let groups = groups(report);
    let right = width(report) - 20.0;
    let ratios = groups.iter().flat_map(|group| &group.bars).map(|(_, ratio)| *ratio);
    let scale = Scale::around(ratios.chain([0.5, 2.0]), BOTTOM, TOP);
    svg.text(
        (LEFT, 24.0),
        16.0,
        Anchor::Start,
        "Time as a multiple of the proved library's (the line at 1): above it slower, below it faster",
    );
    legend(svg);
    for power in scale.powers() {
        let y = scale.place(power);
        svg.line((LEFT, y), (right, y), FAINT, 1.0);
        svg.text((LEFT - 8.0, y + 4.0), 12.0, Anchor::End, &plain(power));
    }
    for (i, group) in groups.iter().enumerate() {
        draw_group(svg, group, LEFT + GROUP * (i as f64 + 0.5), &scale);
    }
    let one = scale.place(1.0);
    svg.line((LEFT, one), (right, one), INK, 1.5);
}

fn legend(svg: &mut Svg) {
    let mut x = LEFT;
    let names = NAMES[1..].iter().chain([&READING]);
    for (name, colour) in names.zip(COLOURS) {
        svg.rect((x, 40.0), (12.0, 12.0), colour);
        svg.text((x + 18.0, 51.0), 13.0, Anchor::Start, name);
        x += 50.0 + 7.5 * name.len() as f64;
    }
}

fn draw_group(svg: &mut Svg, group: &Group, middle: f64, scale: &Scale) {
    let one = scale.place(1.0);
    let left = middle - BAR * group.bars.len() as f64 / 2.0;
    for (i, (colour, ratio)) in group.bars.iter().enumerate() {
        let (x, y) = (left + BAR * i as f64, scale.place(*ratio));
        svg.rect((x + 1.0, y.min(one)), (BAR - 2.0, (y - one).abs().max(1.0)), colour);
        let label = if *ratio < 10.0 { format!("{ratio:.2}") } else { format!("{ratio:.1}") };
        let (place, anchor) = if y < one { (y - 4.0, Anchor::Start) } else { (y + 4.0, Anchor::End) };
        svg.upright((x + BAR / 2.0 + 3.5, place), 10.0, anchor, &label);
    }
    for (i, line) in group.name.split(", ").enumerate() {
        svg.text((middle, BOTTOM + 52.0 + 15.0 * i as f64), 11.0, Anchor::Middle, line);
    }
}
