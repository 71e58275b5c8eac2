//! The proved library, as `tools/archive` exports it.

use super::slots::Face;
use super::{Tally, PROVED};
use crate::twin::codec::Node;
use cikolaro::raw::{self, Answer, Lent, LentNode};
use std::marker::PhantomData;

/// The exported functions that are measured, with their numbers.
pub trait Exported {
    const SIDE: &'static str;

    fn format(store: &mut [u8], count: u32) -> u32;

    fn audit(store: &[u8], marks: &mut [u64]) -> (u32, usize);

    fn batch(store: &mut [u8], marks: &mut [u64], records: &[u8]) -> (u32, usize);

    fn lookup(store: &[u8], key: &[u8]) -> Answer;

    fn forward(store: &[u8], cursor: &mut Lent) -> Answer;

    fn node_read(bytes: &[u8]) -> (u32, usize);

    fn node_write(node: &LentNode, destination: &mut [u8]) -> (u32, usize);
}

/// The functions that rust/cikolaro links.
pub struct Linked;

pub type Proved = Library<Linked>;

impl Exported for Linked {
    const SIDE: &'static str = PROVED;

    fn format(store: &mut [u8], count: u32) -> u32 {
        raw::format(store, count)
    }

    fn audit(store: &[u8], marks: &mut [u64]) -> (u32, usize) {
        raw::audit(store, marks)
    }

    fn batch(store: &mut [u8], marks: &mut [u64], records: &[u8]) -> (u32, usize) {
        raw::batch(store, marks, records)
    }

    fn lookup(store: &[u8], key: &[u8]) -> Answer {
        raw::lookup(store, key)
    }

    fn forward(store: &[u8], cursor: &mut Lent) -> Answer {
        raw::forward(store, cursor)
    }

    fn node_read(bytes: &[u8]) -> (u32, usize) {
        raw::node_read(bytes)
    }

    fn node_write(node: &LentNode, destination: &mut [u8]) -> (u32, usize) {
        raw::node_write(node, destination)
    }
}

/// The library by such functions.
pub struct Library<E>(PhantomData<E>);

impl<E: Exported> Face for Library<E> {
    const NAME: &'static str = E::SIDE;

    fn format(store: &mut [u8], count: u32) {
        assert_eq!(E::format(store, count), 0);
    }

    fn batch(store: &mut [u8], marks: &mut [u64], records: &[u8]) -> usize {
        let (number, applied) = E::batch(store, marks, records);
        assert_eq!(number, 0);
        applied
    }

    fn lookup(store: &[u8], key: &[u8]) -> Option<u64> {
        let answer = E::lookup(store, key);
        assert_eq!(answer.number, 0);
        answer.value
    }

    fn scan(store: &[u8]) -> Tally {
        let mut cursor = Lent { kind: 0, length: 0, key: [0; cikolaro::LONGEST_KEY] };
        let mut tally = Tally::default();
        loop {
            let answer = E::forward(store, &mut cursor);
            assert_eq!(answer.number, 0);
            let Some(value) = answer.value else { return tally };
            tally.entry(&cursor.key[..cursor.length], value);
        }
    }

    fn audit(store: &[u8], marks: &mut [u64]) -> usize {
        let (number, reached) = E::audit(store, marks);
        assert_eq!(number, 0);
        reached
    }

    fn read_node(bytes: &[u8]) -> usize {
        let (number, count) = E::node_read(bytes);
        assert_eq!(number, 0);
        count
    }
}

impl<E: Exported> Library<E> {
    /// Standard form to the front of the destination; how long it is.
    pub fn write_node(node: &LentNode, dst: &mut [u8]) -> usize {
        let (number, written) = E::node_write(node, dst);
        assert_eq!(number, 0);
        written
    }
}

/// The node as the library is lent it: made before the time is taken.
pub fn lent(node: &Node) -> LentNode {
    LentNode { count: node.count, children: node.children, values: node.values, lengths: node.lens, keys: node.keys }
}
