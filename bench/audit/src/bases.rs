//! Good stores, from which the damaged ones are made.

use crate::grown::{self, Filling, Shape};
use crate::layout::*;

pub fn pair(key: &[u8]) -> Pair {
    (key.to_vec(), 1 + key.len() as u64)
}

/// Keys of one byte.
pub fn pairs(keys: &[u8]) -> Vec<Pair> {
    keys.iter().map(|key| pair(&[*key])).collect()
}

/// A store whose root is a leaf in the slot, the others free.
pub fn leaf_in(slot: u64, count: u32, bytes: &[u8]) -> Vec<u8> {
    let mut buffer = blank(count);
    let others: Vec<u64> = (1..=count.into()).filter(|s| *s != slot).collect();
    put_u64(&mut buffer, 0, slot);
    put_chain(&mut buffer, &others);
    put_node(&mut buffer, slot, bytes);
    buffer
}

pub fn leaf(bytes: &[u8]) -> Vec<u8> {
    leaf_in(1, 3, bytes)
}

pub fn leaf_of(keys: &[&[u8]]) -> Vec<u8> {
    let pairs: Vec<Pair> = keys.iter().map(|key| pair(key)).collect();
    leaf(&node(&[], &pairs))
}

/// Eight keys of 288 bytes, 2,480 bytes in all.
pub fn largest() -> Vec<u8> {
    let pairs: Vec<Pair> = (1..=8).map(|n| pair(&[n; 288])).collect();
    node(&[], &pairs)
}

pub const LEFT: u64 = 1;
pub const MIDDLE: u64 = 2;
pub const ROOT: u64 = 3;
pub const RIGHT: u64 = 4;
pub const COUNT: u64 = 7;
/// The free slots in the chain's order, as slots are freed and taken again.
pub const FREE: [u64; 3] = [6, 7, 5];

/// Keys 10, 20, .. 140: the leaves 10..40, 60..90, 110..140 in slots 1, 2, 4,
/// the root with 50 and 100 in slot 3.
pub fn whole() -> Vec<u8> {
    let mut buffer = blank(COUNT as u32);
    put_u64(&mut buffer, 0, ROOT);
    put_u32(&mut buffer, 8, 1);
    put_chain(&mut buffer, &FREE);
    put_node(&mut buffer, LEFT, &node(&[], &pairs(&[10, 20, 30, 40])));
    put_node(&mut buffer, MIDDLE, &node(&[], &pairs(&[60, 70, 80, 90])));
    let right = node(&[], &pairs(&[110, 120, 130, 140]));
    put_node(&mut buffer, RIGHT, &right);
    let root = node(&[LEFT, MIDDLE, RIGHT], &pairs(&[50, 100]));
    put_node(&mut buffer, ROOT, &root);
    buffer
}

pub fn formatted_6() -> Vec<u8> {
    formatted(6)
}

/// Keys 1, 2, .. as two bytes, most significant first.
pub fn short_key(place: u64) -> Vec<u8> {
    (place as u16).to_be_bytes().to_vec()
}

pub fn grown(shape: &Shape, count: u32, slots: Vec<u64>) -> Vec<u8> {
    let filling = Filling {
        count,
        slots,
        key: short_key,
    };
    grown::store(shape, filling)
}

pub fn inner(leaves: usize, separators: usize) -> Shape {
    Shape::Inner(vec![Shape::Leaf(separators); leaves])
}

/// Depth 2: two nodes with five leaves of 4 below the root, 13 nodes in all.
pub fn deep() -> Shape {
    Shape::Inner(vec![inner(5, 4), inner(5, 4)])
}

/// The same in every fifth slot of 65, the root in the last.
pub fn spread() -> Vec<u8> {
    grown(&deep(), 65, (1..=13).rev().map(|i| 5 * i).collect())
}
