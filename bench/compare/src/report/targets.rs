//! The targets, each with the ratio that was measured.

use super::table::{head, line};
use super::{Report, BATCH, LOOKUP, STEP};
use crate::sides::{LMDB, ORIGINAL, PROVED, TWIN};

struct Target {
    name: String,
    /// None where the other side isn't there.
    measured: Option<f64>,
    most: f64,
}

impl Report {
    fn all_targets(&self) -> Vec<Target> {
        let (lookup, batch, step) = (self.row(LOOKUP), self.row(BATCH), self.row(STEP));
        let step_to_lookup = step.time(PROVED).zip(lookup.time(PROVED)).map(|(step, lookup)| step / lookup);
        let target = |name: &str, measured, most| Target { name: name.to_owned(), measured, most };
        let mut all = vec![
            target("lookup to LMDB's", lookup.ratio(PROVED, LMDB), 1.5),
            target("lookup to the original's", lookup.ratio(PROVED, ORIGINAL), 0.25),
            target("batch with audit to the twin's", batch.ratio(PROVED, TWIN), 1.2),
            target("batch with audit to the original's (without)", batch.ratio(PROVED, ORIGINAL), 1.0),
            target("cursor step to a lookup", step_to_lookup, 1.5),
        ];
        for audit in &self.audits {
            all.push(target(&format!("audit to one reading: {}", audit.store), Some(audit.ratio()), 3.0));
        }
        all
    }

    pub fn targets(&self, text: &mut String) {
        head(text, "Target: the proved library's time as a ratio", &["at most", "measured", ""]);
        for target in self.all_targets() {
            let (measured, verdict) = match target.measured {
                None => ("-".to_owned(), "not measured"),
                Some(ratio) if ratio <= target.most => (format!("{ratio:.2}"), "met"),
                Some(ratio) => (format!("{ratio:.2}"), "**not met**"),
            };
            let cells = [format!("{:.2}", target.most), measured, verdict.to_owned()];
            line(text, &target.name, cells.into_iter());
        }
    }
}
