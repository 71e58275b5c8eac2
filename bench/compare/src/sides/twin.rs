//! The Rust twin, which goes down from the root for each key, as the library does; and the same going on from the last key, which is
//! for the library to come.

use super::slots::Face;
use super::{Tally, RESUMING, TWIN};
use crate::twin::{audit, batch, codec, format, walk};

pub struct Rust<const RESUMES: bool>;

pub type Twin = Rust<false>;

pub type Resuming = Rust<true>;

impl<const RESUMES: bool> Face for Rust<RESUMES> {
    const NAME: &'static str = if RESUMES { RESUMING } else { TWIN };

    fn format(store: &mut [u8], count: u32) {
        assert_eq!(format(store, count), Ok(()));
    }

    fn batch(store: &mut [u8], marks: &mut [u64], records: &[u8]) -> usize {
        let (number, applied) = batch::batch(store, marks, records, RESUMES);
        assert_eq!(number, 0);
        applied
    }

    fn lookup(store: &[u8], key: &[u8]) -> Option<u64> {
        walk::lookup(store, key).expect("no refusal")
    }

    fn scan(store: &[u8]) -> Tally {
        let mut cursor = walk::Cursor::START;
        let mut tally = Tally::default();
        while let Some(value) = walk::forward(store, &mut cursor).expect("no refusal") {
            tally.entry(cursor.key(), value);
        }
        tally
    }

    fn audit(store: &[u8], marks: &mut [u64]) -> usize {
        audit::audit(store, marks).expect("no refusal")
    }

    fn read_node(bytes: &[u8]) -> usize {
        codec::read(bytes).expect("no refusal").count
    }
}
