//! The lines: how cost grows with the number of slots.

use super::svg::{plain, Anchor, Scale, Svg, FAINT, INK};
use crate::growth::{Costs, Point};

const HEIGHT: f64 = 330.0;

/// A cost, its name and colour.
struct Curve {
    name: &'static str,
    colour: &'static str,
    cost: fn(&Costs) -> f64,
}

const EACH: [Curve; 4] = [
    Curve { name: "set, with its share of the audit", colour: "#D55E00", cost: |costs| costs.set },
    Curve { name: "set alone", colour: "#E69F00", cost: Costs::set_alone },
    Curve { name: "lookup", colour: "#0072B2", cost: |costs| costs.lookup },
    Curve { name: "cursor step", colour: "#009E73", cost: |costs| costs.step },
];

const AUDIT: [Curve; 1] = [Curve { name: "audit", colour: "#CC79A7", cost: |costs| costs.audit / 1e6 }];

/// Where a part of the plot stands.
struct Frame {
    left: f64,
    right: f64,
    top: f64,
    bottom: f64,
}

pub fn draw(svg: &mut Svg, points: &[Point], top: f64, width: f64) {
    let bottom = top + HEIGHT;
    let middle = width * 0.58;
    let each = Frame { left: 70.0, right: middle - 40.0, top, bottom };
    panel(svg, &each, "Nanoseconds for one (a set: of a batch of 1,000)", &EACH, points);
    let audit = Frame { left: middle + 40.0, right: width - 20.0, top, bottom };
    panel(svg, &audit, "Milliseconds for an audit", &AUDIT, points);
}

fn panel(svg: &mut Svg, frame: &Frame, title: &str, curves: &[Curve], points: &[Point]) {
    let both = |point: &'_ Point, curve: &Curve| [(curve.cost)(&point.proved), (curve.cost)(&point.twin)];
    let costs = points.iter().flat_map(|point| curves.iter().flat_map(move |curve| both(point, curve)));
    let y = Scale::around(costs.filter(|cost| 0.0 < *cost), frame.bottom, frame.top);
    let slots = |point: Option<&Point>| f64::from(point.expect("there are points").slots);
    let (least, most) = (slots(points.first()), slots(points.last()));
    let x = Scale { least, most, from: frame.left + 16.0, to: frame.right - 16.0 };
    svg.text((frame.left, frame.top - 66.0), 16.0, Anchor::Start, title);
    axes(svg, frame, &x, &y, points);
    for (i, curve) in curves.iter().enumerate() {
        legend(svg, frame, i, curve);
        svg.curve(&places(points, &x, &y, |point| (curve.cost)(&point.proved)), curve.colour, false);
        svg.curve(&places(points, &x, &y, |point| (curve.cost)(&point.twin)), curve.colour, true);
    }
}

/// A difference of times that came out below 0 has no place.
fn places(points: &[Point], x: &Scale, y: &Scale, cost: impl Fn(&Point) -> f64) -> Vec<(f64, f64)> {
    let shown = points.iter().filter(|point| 0.0 < cost(point));
    shown.map(|point| (x.place(point.slots.into()), y.place(cost(point)))).collect()
}

fn legend(svg: &mut Svg, frame: &Frame, i: usize, curve: &Curve) {
    let (column, line) = (i % 2, i / 2);
    let (x, y) = (frame.left + 270.0 * column as f64, frame.top - 46.0 + 18.0 * line as f64);
    svg.curve(&[(x, y), (x + 26.0, y)], curve.colour, false);
    svg.text((x + 36.0, y + 4.0), 13.0, Anchor::Start, curve.name);
}

fn axes(svg: &mut Svg, frame: &Frame, x: &Scale, y: &Scale, points: &[Point]) {
    for power in y.powers() {
        let place = y.place(power);
        svg.line((frame.left, place), (frame.right, place), FAINT, 1.0);
        svg.text((frame.left - 8.0, place + 4.0), 12.0, Anchor::End, &plain(power));
    }
    for point in points {
        let place = x.place(point.slots.into());
        svg.line((place, frame.top), (place, frame.bottom), FAINT, 1.0);
        svg.text((place, frame.bottom + 18.0), 12.0, Anchor::Middle, &plain(f64::from(point.slots) / 1e3));
    }
    svg.line((frame.left, frame.bottom), (frame.right, frame.bottom), INK, 1.0);
    svg.line((frame.left, frame.top), (frame.left, frame.bottom), INK, 1.0);
    let told = "thousand slots, two thirds used (whole: proved, dashed: twin)";
    svg.text(((frame.left + frame.right) / 2.0, frame.bottom + 40.0), 12.0, Anchor::Middle, told);
}
