//! The table of two archives: what a change made slower or faster.

use super::table::{head, line, shown};
use crate::rows::Row;
use crate::sides::archives::{AFTER, BEFORE};
use std::fmt::Write;

/// How much slower a row may get by a change.
const MOST: f64 = 1.03;

/// Both archives' rows. With `is_same` one archive stands on both sides, and all that differs is noise.
pub struct Versus {
    pub rounds: usize,
    pub rows: Vec<Row>,
    pub is_same: bool,
}

/// A ratio of after to before: what it is called, and how it comes from a row.
struct Ratio {
    name: &'static str,
    of_row: fn(&Row) -> Option<f64>,
}

const BEST: Ratio = Ratio { name: "ratio of best", of_row: |row| row.ratio(AFTER, BEFORE) };
const MEDIANS: Ratio = Ratio { name: "ratio of medians", of_row: |row| Some(row.median(AFTER)? / row.median(BEFORE)?) };
const PAIRED: Ratio = Ratio { name: "median of ratios", of_row: |row| row.median_ratio(AFTER, BEFORE) };

/// In the order of the table.
const RATIOS: [Ratio; 3] = [BEST, MEDIANS, PAIRED];

impl Ratio {
    fn of(&self, row: &Row) -> f64 {
        (self.of_row)(row).expect("both sides are measured")
    }

    /// The largest, and whether it is small enough.
    fn largest(&self, rows: &[Row]) -> String {
        let all = rows.iter().map(|row| (self.of(row), row.name));
        let (largest, row) = all.max_by(|one, other| one.0.total_cmp(&other.0)).expect("there are rows");
        let is_met = if largest <= MOST { "at most" } else { "**above**" };
        format!("Largest {}: {largest:.3} ({row}), {is_met} {MOST:.2}.", self.name)
    }

    /// How far it is from 1 at most, in percent.
    fn farthest(&self, rows: &[Row]) -> f64 {
        100.0 * rows.iter().map(|row| (self.of(row) - 1.0).abs()).fold(0.0, f64::max)
    }
}

impl Versus {
    pub fn table(&self) -> String {
        let mut text =
            format!("Best and median of {} rounds or more, both sides in turn, {}.\n", self.rounds, conditions());
        let mut columns = vec!["before, ns", if self.is_same { "before again, ns" } else { "after, ns" }];
        columns.extend(RATIOS.iter().map(|ratio| ratio.name));
        head(&mut text, "One of", &columns);
        for row in &self.rows {
            let times = [BEFORE, AFTER].into_iter().map(|side| shown(row.time(side), 1));
            let ratios = RATIOS.iter().map(|ratio| format!("{:.3}", ratio.of(row)));
            line(&mut text, row.name, times.chain(ratios));
        }
        let told = if self.is_same { self.noise() } else { self.verdict() };
        writeln!(text, "\n{told}").expect("a string takes all");
        text
    }

    fn verdict(&self) -> String {
        format!("{} {}", BEST.largest(&self.rows), PAIRED.largest(&self.rows))
    }

    fn noise(&self) -> String {
        let parts = RATIOS.iter().map(|ratio| format!("{:.1} % ({})", ratio.farthest(&self.rows), ratio.name));
        let parts: Vec<String> = parts.collect();
        format!(
            "Both sides are one archive, so all this is noise: ratios are away from 1 by up to {}.",
            parts.join(", ")
        )
    }
}

/// What else runs on the machine, as far as it tells.
fn conditions() -> String {
    let processors = std::thread::available_parallelism().map_or(1, usize::from);
    let load = std::fs::read_to_string("/proc/loadavg").unwrap_or_default();
    format!("{processors} processors, load {}", load.split(' ').next().unwrap_or("unknown"))
}
