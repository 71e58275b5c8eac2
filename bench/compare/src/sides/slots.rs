//! Sides with 01's store: the proved library and its twin.

use super::{fill, Side, Tally};
use crate::twin::layout::{mark_words, size_of_store};
use crate::work::{Batch, Key};
use std::marker::PhantomData;

/// What both offer. Each answers as 01 says; numbers other than 0 end the program, since the work has no refusals.
pub trait Face {
    const NAME: &'static str;

    fn format(store: &mut [u8], count: u32);

    /// How many records are applied.
    fn batch(store: &mut [u8], marks: &mut [u64], records: &[u8]) -> usize;

    fn lookup(store: &[u8], key: &[u8]) -> Option<u64>;

    fn scan(store: &[u8]) -> Tally;

    /// How many slots are reached.
    fn audit(store: &[u8], marks: &mut [u64]) -> usize;

    /// How many separators the node has.
    fn read_node(bytes: &[u8]) -> usize;
}

pub fn lookups<F: Face>(store: &[u8], keys: &[Key]) -> Tally {
    let mut tally = Tally::default();
    for key in keys {
        if let Some(value) = F::lookup(store, key) {
            tally.value(value);
        }
    }
    tally
}

pub struct InSlots<F> {
    pub store: Vec<u8>,
    pub marks: Vec<u64>,
    slots: u32,
    kept: Vec<u8>,
    face: PhantomData<F>,
}

impl<F: Face> InSlots<F> {
    pub fn new(slots: u32) -> Self {
        let mut store = vec![1; size_of_store(slots)];
        F::format(&mut store, slots);
        InSlots { store, marks: vec![0; mark_words(slots)], slots, kept: Vec::new(), face: PhantomData }
    }
}

impl<F: Face> Side for InSlots<F> {
    fn name(&self) -> &'static str {
        F::NAME
    }

    fn clear(&mut self) {
        F::format(&mut self.store, self.slots);
    }

    fn apply(&mut self, batch: &Batch) {
        let applied = F::batch(&mut self.store, &mut self.marks, &batch.records);
        assert_eq!(applied, batch.changes.len());
    }

    /// A copy of the bytes that the batches made the first time.
    fn restore(&mut self, loaded: &[Batch]) {
        if self.kept.is_empty() {
            fill(self, loaded);
            self.kept = self.store.clone();
        }
        self.store.copy_from_slice(&self.kept);
    }

    fn lookups(&self, keys: &[Key]) -> Tally {
        lookups::<F>(&self.store, keys)
    }

    fn scan(&self) -> Tally {
        F::scan(&self.store)
    }

    fn store(&self) -> Option<&[u8]> {
        Some(&self.store)
    }
}
