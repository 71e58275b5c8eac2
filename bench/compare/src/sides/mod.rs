//! Who is compared. Each side does the same work by its own means.

#[cfg(feature = "versus")]
pub mod archives;
mod map;
pub mod proved;
pub mod slots;
pub mod twin;

#[cfg(lmdb)]
mod lmdb;
#[cfg(feature = "original")]
pub mod original;
#[cfg(sqlite)]
mod sqlite;

use crate::clock::timed;
use crate::work::{Batch, Key};

pub const PROVED: &str = "proved";
pub const TWIN: &str = "twin";
pub const RESUMING: &str = "resuming twin";
pub const ORIGINAL: &str = "original";
pub const MAP: &str = "BTreeMap";
pub const LMDB: &str = "LMDB";
pub const SQLITE: &str = "SQLite";

/// In the order of the table.
pub const NAMES: [&str; 7] = [PROVED, TWIN, RESUMING, ORIGINAL, MAP, LMDB, SQLITE];

/// What lookups or a scan came across: all sides have to agree.
#[derive(Clone, Copy, Debug, Default, PartialEq, Eq)]
pub struct Tally {
    pub count: u64,
    /// Of the values.
    pub sum: u64,
    /// Of the keys' last eight bytes; lookups leave it 0.
    pub keys: u64,
}

impl Tally {
    #[inline(always)]
    pub fn value(&mut self, value: u64) {
        self.count += 1;
        self.sum = self.sum.wrapping_add(value);
    }

    #[inline(always)]
    pub fn entry(&mut self, key: &[u8], value: u64) {
        self.value(value);
        self.keys = self.keys.wrapping_add(u64::from_be_bytes(*key.last_chunk().expect("keys have 24 bytes")));
    }
}

pub trait Side {
    fn name(&self) -> &'static str;

    /// Forgets all keys.
    fn clear(&mut self);

    /// Brings a batch into the form in which the side is given one; no part of its time.
    fn prepare(&mut self, _batch: &Batch) {}

    /// Runs the batch that was just prepared.
    fn apply(&mut self, batch: &Batch);

    /// Back to the state that these batches make.
    fn restore(&mut self, loaded: &[Batch]) {
        fill(self, loaded);
    }

    fn lookups(&self, keys: &[Key]) -> Tally;

    /// All entries in order, one step of a cursor at a time.
    fn scan(&self) -> Tally;

    /// The bytes of a side that has 01's slots.
    fn store(&self) -> Option<&[u8]> {
        None
    }
}

/// Empties a side and runs these batches; the time of running them.
pub fn fill<S: Side + ?Sized>(side: &mut S, batches: &[Batch]) -> f64 {
    side.clear();
    batches.iter().map(|batch| run(side, batch)).sum()
}

/// Runs a batch; its time.
pub fn run<S: Side + ?Sized>(side: &mut S, batch: &Batch) -> f64 {
    side.prepare(batch);
    timed(|| side.apply(batch)).1
}

/// All sides that are there, the proved library first.
pub fn all(slots: u32) -> Vec<Box<dyn Side>> {
    vec![
        Box::new(slots::InSlots::<proved::Proved>::new(slots)),
        Box::new(slots::InSlots::<twin::Twin>::new(slots)),
        Box::new(slots::InSlots::<twin::Resuming>::new(slots)),
        #[cfg(feature = "original")]
        Box::new(original::Tree::new(slots)),
        Box::new(map::Map::default()),
        #[cfg(lmdb)]
        Box::new(lmdb::Lmdb::new()),
        #[cfg(sqlite)]
        Box::new(sqlite::Sqlite::new()),
    ]
}

/// What isn't there on this machine, and why.
pub fn missing() -> Vec<&'static str> {
    let all = [
        (cfg!(feature = "original"), "the original: its files are not there (oracle/README.md)"),
        (cfg!(lmdb), "LMDB: liblmdb-dev is not installed"),
        (cfg!(sqlite), "SQLite: libsqlite3-dev is not installed"),
    ];
    all.into_iter().filter(|(is_there, _)| !is_there).map(|(_, told)| told).collect()
}
