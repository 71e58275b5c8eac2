//! The original, through the oracle's stand-ins: nodes as byte strings in memory, no log, no files.

use super::{Side, Tally, ORIGINAL};
use crate::work::{Batch, Key};
use original::btree::glue::{Change, Changes, Numbering, Original};

pub struct Tree {
    tree: Original,
    slots: u32,
    prepared: Option<Changes>,
}

impl Tree {
    pub fn new(slots: u32) -> Self {
        Tree { tree: empty(slots), slots, prepared: None }
    }
}

fn empty(slots: u32) -> Original {
    Original::new(Numbering::Chain(slots)).expect("an empty tree is made")
}

impl Side for Tree {
    fn name(&self) -> &'static str {
        ORIGINAL
    }

    fn clear(&mut self) {
        self.tree = empty(self.slots);
    }

    /// The original is handed owned keys and values.
    fn prepare(&mut self, batch: &Batch) {
        let changes: Vec<Change> = batch.changes.iter().map(change).collect();
        self.prepared = Some(Changes::new(&changes).expect("sets and dereferences are taken"));
    }

    fn apply(&mut self, _batch: &Batch) {
        let changes = self.prepared.take().expect("the batch was prepared");
        self.tree.run(changes).expect("there is room");
    }

    fn lookups(&self, keys: &[Key]) -> Tally {
        let mut tally = Tally::default();
        for key in keys {
            if let Some(value) = self.tree.get(key).expect("the tree is good") {
                tally.value(value);
            }
        }
        tally
    }

    fn scan(&self) -> Tally {
        let mut tally = Tally::default();
        let mut cursor = self.tree.cursor().expect("the tree is good");
        while let Some((key, value)) = cursor.forward().expect("the tree is good") {
            tally.entry(&key, value);
        }
        tally
    }
}

fn change((key, value): &(Key, Option<u64>)) -> Change {
    match value {
        Some(value) => Change::Set(key.to_vec(), *value),
        None => Change::Dereference(key.to_vec()),
    }
}
