//! std's BTreeMap: in memory only, no bytes to lend, no audit.

use super::{Side, Tally, MAP};
use crate::work::{Batch, Key};
use std::collections::BTreeMap;

#[derive(Default)]
pub struct Map(BTreeMap<Key, u64>);

impl Side for Map {
    fn name(&self) -> &'static str {
        MAP
    }

    fn clear(&mut self) {
        self.0.clear();
    }

    fn apply(&mut self, batch: &Batch) {
        for (key, value) in &batch.changes {
            match value {
                Some(value) => self.0.insert(*key, *value),
                None => self.0.remove(key),
            };
        }
    }

    fn lookups(&self, keys: &[Key]) -> Tally {
        let mut tally = Tally::default();
        for key in keys {
            if let Some(value) = self.0.get(key) {
                tally.value(*value);
            }
        }
        tally
    }

    fn scan(&self) -> Tally {
        let mut tally = Tally::default();
        for (key, value) in &self.0 {
            tally.entry(key, *value);
        }
        tally
    }
}
