//! 01's audit, read anew on bytes: plain and slow.

use oracle::model::buffer::{start_of, SLOT};
use oracle::model::codec;

use crate::nodes::pairs_of;

/// The number, and the slots that are reached.
pub fn audit(store: &[u8], words: usize) -> (u32, Vec<u64>) {
    if oracle::model::buffer::store(store).is_err() {
        return (1, Vec::new());
    }
    let count = number(store, 12, 4);
    if (words as u64) < count.div_ceil(64) {
        return (2, Vec::new());
    }
    let mut reached = Vec::new();
    match passes(store, count, &mut reached) {
        Some(()) => (0, reached),
        None => (8, Vec::new()),
    }
}

fn number(store: &[u8], at: usize, width: usize) -> u64 {
    store[at..at + width].iter().rev().fold(0, |n, b| n << 8 | u64::from(*b))
}

fn holds(test: bool) -> Option<()> {
    test.then_some(())
}

fn passes(store: &[u8], count: u64, reached: &mut Vec<u64>) -> Option<()> {
    let (root, depth) = (number(store, 0, 8), number(store, 8, 4));
    let mut keys = Vec::new();
    if root == 0 {
        holds(depth == 0)?;
    } else {
        holds(depth <= 7)?;
        visit(store, count, root, depth, true, reached, &mut keys)?;
    }
    holds(keys.windows(2).all(|pair| pair[0] < pair[1]))?;
    let free = chain(store, count)?;
    let mut all: Vec<u64> = reached.iter().chain(&free).copied().collect();
    all.sort_unstable();
    holds(all == (1..=count).collect::<Vec<_>>())
}

/// "every reached node is in standard form"; "every node but the root has 4 to 8 separators, the root 0 to 8 and at least 1 where depth
/// is above 0; no slot is reached twice".
fn visit(
    store: &[u8],
    count: u64,
    slot: u64,
    depth: u64,
    is_root: bool,
    reached: &mut Vec<u64>,
    keys: &mut Vec<Vec<u8>>,
) -> Option<()> {
    holds((1..=count).contains(&slot) && !reached.contains(&slot))?;
    reached.push(slot);
    let bytes = &store[start_of(slot)..start_of(slot) + SLOT];
    let length = number(bytes, 0, 4) as usize;
    holds((8..=2480).contains(&length) && bytes[4 + length..].iter().all(|b| *b == 0))?;
    let node = &bytes[4..4 + length];
    let reading = codec::read(node).ok()?;
    let pairs = pairs_of(node, &reading);
    holds(codec::write(&reading.children, &pairs).ok()? == node)?;
    let least = if !is_root { 4 } else { usize::from(depth > 0) };
    holds(pairs.len() >= least)?;
    holds(reading.children.iter().all(|child| (*child == 0) == (depth == 0)))?;
    for (at, child) in reading.children.iter().enumerate() {
        if depth > 0 {
            visit(store, count, *child, depth - 1, false, reached, keys)?;
        }
        keys.extend(pairs.get(at).map(|(key, _)| key.clone()));
    }
    Some(())
}

/// The free chain, each slot free, if it ends.
fn chain(store: &[u8], count: u64) -> Option<Vec<u64>> {
    let mut free = Vec::new();
    let mut slot = number(store, 16, 4);
    while slot != 0 {
        holds(slot <= count && free.len() < count as usize)?;
        free.push(slot);
        let bytes = &store[start_of(slot)..start_of(slot) + SLOT];
        holds(bytes[..4].iter().chain(&bytes[8..]).all(|b| *b == 0))?;
        slot = number(bytes, 4, 4);
    }
    Some(free)
}
