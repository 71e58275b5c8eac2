//! What is written: a table, the targets, a plot.

mod bars;
mod lines;
mod svg;
mod table;
mod targets;
#[cfg(feature = "versus")]
pub mod versus;

use crate::audits::Audit;
use crate::growth::Point;
use crate::rows::Row;

/// Rows that targets speak of, or that more than one table has.
pub const LOAD: &str = "load";
pub const LOOKUP: &str = "lookup, half present";
pub const STEP: &str = "cursor step";
pub const READING: &str = "node reading";
pub const WRITING: &str = "node writing";
pub const BATCH: &str = "batch, rising sets";
pub const BEHIND_ALL: &str = "batch, behind all keys";
pub const PRESENT: &str = "batch, of present keys";
pub const REMOVALS: &str = "removals";
pub const LONG_PREFIX: &str = "batch, long shared prefix";
pub const AUDIT: &str = "audit";

pub struct Report {
    pub rounds: usize,
    pub rows: Vec<Row>,
    pub audits: Vec<Audit>,
    pub growth: Vec<Point>,
}

impl Report {
    /// Bars of ratios, and below them how cost grows.
    pub fn plot(&self) -> String {
        let width = bars::width(self);
        let mut svg = svg::Svg::new(width, 960.0);
        bars::draw(&mut svg, self);
        lines::draw(&mut svg, &self.growth, 570.0, width);
        svg.end()
    }

    fn row(&self, name: &str) -> &Row {
        self.rows.iter().find(|row| row.name == name).expect("the row is measured")
    }
}
