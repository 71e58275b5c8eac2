//! The tables, in Markdown.

use super::{Report, LOOKUP, STEP};
use crate::growth::Costs;
use crate::sides::{missing, NAMES, PROVED};
use std::fmt::Write;

impl Report {
    pub fn table(&self) -> String {
        let mut text = String::new();
        writeln!(text, "Best of {} rounds, all sides in turn in one process.", self.rounds)
            .expect("a string takes all");
        for told in missing() {
            writeln!(text, "Left out: {told}.").expect("a string takes all");
        }
        self.times(&mut text);
        self.ratios(&mut text);
        self.audit_table(&mut text);
        self.growth_table(&mut text);
        self.targets(&mut text);
        text
    }

    fn times(&self, text: &mut String) {
        head(text, "Nanoseconds for one", &NAMES);
        for row in &self.rows {
            line(text, row.name, NAMES.iter().map(|side| shown(row.time(side), 0)));
        }
    }

    fn ratios(&self, text: &mut String) {
        head(text, "Time as a multiple of the proved library's", &NAMES);
        for row in self.rows.iter().filter(|row| row.time(PROVED).is_some()) {
            line(text, row.name, NAMES.iter().map(|side| shown(row.ratio(side, PROVED), 2)));
        }
        head(text, "Of one side", &NAMES);
        let (step, lookup) = (self.row(STEP), self.row(LOOKUP));
        let own = |side: &&str| step.time(side).zip(lookup.time(side)).map(|(step, lookup)| step / lookup);
        line(text, "its cursor step to its lookup", NAMES.iter().map(|side| shown(own(side), 2)));
    }

    fn audit_table(&self, text: &mut String) {
        let columns = ["slots", "proved, ms", "twin, ms", "one reading, ms", "proved to reading", "proved to twin"];
        head(text, "Audit of", &columns);
        for audit in &self.audits {
            let milliseconds = |time: f64| format!("{:.2}", time / 1e6);
            let cells = [
                audit.slots.to_string(),
                milliseconds(audit.proved),
                milliseconds(audit.twin),
                milliseconds(audit.reading),
                format!("{:.2}", audit.ratio()),
                format!("{:.2}", audit.proved / audit.twin),
            ];
            line(text, &audit.store, cells.into_iter());
        }
    }

    /// Each cell has the proved library's time and the twin's.
    fn growth_table(&self, text: &mut String) {
        let columns = ["used", "keys", "lookup, ns", "step, ns", "set with audit, ns", "set without, ns", "audit, ms"];
        head(text, "Slots (proved / twin)", &columns);
        for point in &self.growth {
            let both = |cost: fn(&Costs) -> f64, digits: usize| {
                format!("{:.digits$} / {:.digits$}", cost(&point.proved), cost(&point.twin))
            };
            let cells = [
                point.used.to_string(),
                point.keys.to_string(),
                both(|costs| costs.lookup, 0),
                both(|costs| costs.step, 0),
                both(|costs| costs.set, 0),
                both(Costs::set_alone, 0),
                both(|costs| costs.audit / 1e6, 2),
            ];
            line(text, &point.slots.to_string(), cells.into_iter());
        }
    }
}

pub fn shown(number: Option<f64>, digits: usize) -> String {
    number.map_or("-".to_owned(), |number| format!("{number:.digits$}"))
}

/// A title and the names of the columns.
pub fn head(text: &mut String, title: &str, columns: &[&str]) {
    text.push('\n');
    line(text, title, columns.iter().map(|column| column.to_string()));
    line(text, "---", columns.iter().map(|_| "---".to_owned()));
}

pub fn line(text: &mut String, name: &str, cells: impl Iterator<Item = String>) {
    write!(text, "| {name} |").expect("a string takes all");
    for cell in cells {
        write!(text, " {cell} |").expect("a string takes all");
    }
    text.push('\n');
}
