//! Rows of the table: the same work on all sides in turn, several rounds. The side that begins changes with each round.

use crate::clock::timed;
use crate::sides::{fill, run, Side, Tally};
use crate::work::{Batch, Key};
use std::collections::BTreeMap;
use std::ops::Range;

/// Nanoseconds for one of the things that the row is about: of each side what was taken, round by round.
pub struct Row {
    pub name: &'static str,
    times: BTreeMap<&'static str, Vec<Parts>>,
}

/// The times of the parts that a row's work has; most rows have one.
type Parts = Vec<f64>;

impl Row {
    pub fn new(name: &'static str) -> Row {
        Row { name, times: BTreeMap::new() }
    }

    pub fn offer(&mut self, side: &'static str, nanoseconds: f64) {
        self.offer_parts(side, vec![nanoseconds]);
    }

    /// A round whose work was taken in parts.
    pub fn offer_parts(&mut self, side: &'static str, parts: Parts) {
        self.times.entry(side).or_default().push(parts);
    }

    /// A side's best time.
    pub fn time(&self, side: &str) -> Option<f64> {
        self.part_by_part(side, |rising| rising[0])
    }

    pub fn median(&self, side: &str) -> Option<f64> {
        self.part_by_part(side, middle)
    }

    /// What is chosen of each part's times in rising order, added up. So a part counts as well if another one of its round was disturbed.
    fn part_by_part(&self, side: &str, choose: impl Fn(&[f64]) -> f64) -> Option<f64> {
        let rounds = self.times.get(side)?;
        let chosen = (0..rounds[0].len()).map(|part| choose(&rising(rounds.iter().map(|parts| parts[part]))));
        Some(chosen.sum())
    }

    /// One side's time as a multiple of another's.
    pub fn ratio(&self, side: &str, to: &str) -> Option<f64> {
        Some(self.time(side)? / self.time(to)?)
    }

    /// The median of the rounds' own ratios: other work that goes on for a whole round slows both sides of it.
    pub fn median_ratio(&self, side: &str, to: &str) -> Option<f64> {
        let rounds = self.times.get(side)?.iter().zip(self.times.get(to)?);
        let ratios = rounds.map(|(one, other)| one.iter().sum::<f64>() / other.iter().sum::<f64>());
        Some(middle(&rising(ratios)))
    }

    /// Divides what was taken for many things at once.
    pub fn each(mut self, count: usize) -> Row {
        self.times.values_mut().flatten().flatten().for_each(|time| *time /= count as f64);
        self
    }
}

fn rising(numbers: impl Iterator<Item = f64>) -> Vec<f64> {
    let mut rising: Vec<f64> = numbers.collect();
    rising.sort_by(f64::total_cmp);
    rising
}

/// Of numbers in rising order.
fn middle(rising: &[f64]) -> f64 {
    (rising[(rising.len() - 1) / 2] + rising[rising.len() / 2]) / 2.0
}

/// Each of them at some work in each of these rounds; another one begins with each round.
pub fn in_turn<T>(all: &mut [T], rounds: Range<usize>, mut work: impl FnMut(&mut T)) {
    for round in rounds {
        let first = round % all.len();
        all.rotate_left(first);
        all.iter_mut().for_each(&mut work);
        all.rotate_right(first);
    }
}

/// All sides, and how often each row is run.
pub struct Bench {
    pub sides: Vec<Box<dyn Side>>,
    pub rounds: usize,
}

impl Bench {
    /// Each side's times at some work.
    fn measure(&mut self, name: &'static str, mut work: impl FnMut(&mut dyn Side) -> f64) -> Row {
        let mut row = Row::new(name);
        in_turn(&mut self.sides, 0..self.rounds, |side| {
            let time = work(side.as_mut());
            row.offer(side.name(), time);
        });
        eprintln!("{name}: done");
        row
    }

    /// All sides hold the same entries, and those with slots the same bytes.
    fn check(&self, name: &str) {
        let tallies: Vec<Tally> = self.sides.iter().map(|side| side.scan()).collect();
        assert!(tallies.iter().all(|tally| *tally == tallies[0]), "{name}: the entries differ: {tallies:?}");
        let mut stores = self.sides.iter().filter_map(|side| side.store());
        let first = stores.next().expect("there are sides with slots");
        assert!(stores.all(|store| store == first), "{name}: the bytes of the stores differ");
    }

    /// All batches into an empty tree.
    pub fn load(&mut self, name: &'static str, batches: &[Batch]) -> Row {
        let keys = batches.iter().map(|batch| batch.changes.len()).sum();
        let row = self.measure(name, |side| fill(side, batches));
        self.check(name);
        row.each(keys)
    }

    /// One batch on the loaded tree, which is made anew for each round.
    pub fn batch(&mut self, name: &'static str, loaded: &[Batch], batch: &Batch) -> Row {
        let row = self.measure(name, |side| {
            side.restore(loaded);
            run(side, batch)
        });
        self.check(name);
        row.each(batch.changes.len())
    }

    pub fn lookups(&mut self, name: &'static str, keys: &[Key]) -> Row {
        self.ask(name, keys.len(), |side| side.lookups(keys))
    }

    pub fn scan(&mut self, name: &'static str, entries: usize) -> Row {
        self.ask(name, entries, |side| side.scan())
    }

    /// A question to which all sides have to give the same answer.
    fn ask(&mut self, name: &'static str, count: usize, mut ask: impl FnMut(&dyn Side) -> Tally) -> Row {
        let mut expected = None;
        let row = self.measure(name, |side| {
            let (tally, time) = timed(|| ask(side));
            assert_eq!(*expected.get_or_insert(tally), tally, "{name}: {} answers otherwise", side.name());
            time
        });
        row.each(count)
    }

    pub fn restore(&mut self, loaded: &[Batch]) {
        self.sides.iter_mut().for_each(|side| side.restore(loaded));
    }

    /// The bytes of the proved library's store.
    pub fn store(&self) -> &[u8] {
        self.sides[0].store().expect("the first side has slots")
    }
}

#[cfg(test)]
mod tests {
    use super::*;

    #[test]
    fn each_part_has_its_own_best_and_median() {
        let mut row = Row::new("two parts");
        for parts in [[5.0, 10.0], [1.0, 40.0], [3.0, 20.0], [4.0, 60.0]] {
            row.offer_parts("one", parts.to_vec());
        }
        row.offer("other", 22.0);
        assert_eq!(row.time("one"), Some(11.0));
        assert_eq!(row.median("one"), Some(33.5));
        assert_eq!(row.ratio("other", "one"), Some(2.0));
        assert_eq!(row.time("none"), None);
        assert_eq!(row.median_ratio("one", "other"), Some(15.0 / 22.0));
        assert_eq!(row.each(2).median("other"), Some(11.0));
    }

    #[test]
    fn another_one_begins_with_each_round() {
        let mut seen = String::new();
        in_turn(&mut ['a', 'b', 'c'], 1..5, |one| seen.push(*one));
        assert_eq!(seen, "bcacababcbca");
    }
}
