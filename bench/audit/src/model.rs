//! 01's audit, read from the page and not from the Rattle code: no marks, but
//! the tree level by level, all keys in order as one list, and sets of slots.

use crate::layout::{Pair, HEADER, SLOT};
use std::collections::BTreeSet;

pub struct Answer {
    pub number: u32,
    pub reached: u64,
    pub marks: Vec<u64>,
}

/// "Audit: 1, 2, 8."
pub fn audit(buffer: &[u8], before: &[u64]) -> Answer {
    let refused = |number, marks| Answer {
        number,
        reached: 0,
        marks,
    };
    let Some(store) = Store::of(buffer) else {
        return refused(1, before.to_vec());
    };
    if (before.len() as u64) < store.count.div_ceil(64) {
        return refused(2, before.to_vec());
    }
    let mut marks = vec![0; before.len()];
    let Some(reached) = store.reached() else {
        return refused(8, marks);
    };
    for slot in &reached {
        marks[(*slot as usize - 1) / 64] |= 1 << ((slot - 1) % 64);
    }
    Answer {
        number: 0,
        reached: reached.len() as u64,
        marks,
    }
}

struct Store<'a> {
    bytes: &'a [u8],
    count: u64,
}

struct Node {
    children: Vec<u64>,
    pairs: Vec<Pair>,
}

fn number(bytes: &[u8]) -> u64 {
    bytes.iter().rev().fold(0, |n, b| n << 8 | u64::from(*b))
}

fn are_zeros(bytes: &[u8]) -> bool {
    bytes.iter().all(|b| *b == 0)
}

impl<'a> Store<'a> {
    /// None for refusal 1.
    fn of(bytes: &'a [u8]) -> Option<Self> {
        let header = bytes.get(..HEADER)?;
        let count = number(&header[12..16]);
        let fits = (1..=65_535).contains(&count)
            && bytes.len() as u64 == 24 + 2_560 * count
            && are_zeros(&header[20..24]);
        fits.then_some(Store { bytes, count })
    }

    /// Root, depth, first free slot.
    fn header(&self) -> (u64, u64, u64) {
        let field = |from, to| number(&self.bytes[from..to]);
        (field(0, 8), field(8, 12), field(16, 20))
    }

    /// The slot's bytes, if it isn't beyond the count.
    fn slot(&self, slot: u64) -> Option<&'a [u8]> {
        let known = (1..=self.count).contains(&slot);
        known.then(|| &self.bytes[HEADER + SLOT * (slot as usize - 1)..][..SLOT])
    }

    /// "A used slot: u32 node length (8 to 2,480), the node, zeros."
    fn used(&self, slot: u64) -> Option<Node> {
        let bytes = self.slot(slot)?;
        let length = number(&bytes[..4]) as usize;
        let has_layout = (8..=2_480).contains(&length) && are_zeros(&bytes[4 + length..]);
        has_layout
            .then(|| standard(&bytes[4..4 + length]))
            .flatten()
    }

    /// "A free slot: u32 0, u32 next free slot (0 last), zeros."
    fn free(&self, slot: u64) -> Option<u64> {
        let bytes = self.slot(slot)?;
        let is_free = are_zeros(&bytes[..4]) && are_zeros(&bytes[8..]);
        is_free.then(|| number(&bytes[4..8]))
    }

    /// The reached slots of a store that passes.
    fn reached(&self) -> Option<BTreeSet<u64>> {
        let (root, depth, first) = self.header();
        let reached = self.tree(root, depth)?;
        let free = self.chain(first)?;
        let is_whole =
            reached.is_disjoint(&free) && (reached.len() + free.len()) as u64 == self.count;
        is_whole.then_some(reached)
    }

    /// "With no root, depth is 0 and all slots are free. With a root, depth
    /// is at most 7"
    fn tree(&self, root: u64, depth: u64) -> Option<BTreeSet<u64>> {
        if root == 0 {
            return (depth == 0).then(BTreeSet::new);
        }
        let mut reached = BTreeSet::new();
        let mut level = vec![root];
        if depth > 7 {
            return None;
        }
        for above in (0..=depth).rev() {
            let mut below = Vec::new();
            for slot in level {
                let node = self.used(slot)?;
                let fits = has_children(&node, above) && has_separators(&node, slot == root, depth);
                if !fits || !reached.insert(slot) {
                    return None;
                }
                below.extend(node.children.into_iter().filter(|_| above > 0));
            }
            level = below;
        }
        let keys = self.keys(root, depth);
        keys.windows(2)
            .all(|pair| pair[0] < pair[1])
            .then_some(reached)
    }

    /// All keys of a tree whose nodes are there, read in order.
    fn keys(&self, slot: u64, depth: u64) -> Vec<Vec<u8>> {
        let node = self.used(slot).expect("the node is there");
        let mut keys = Vec::new();
        for (i, child) in node.children.iter().enumerate() {
            if depth > 0 {
                keys.extend(self.keys(*child, depth - 1));
            }
            keys.extend(node.pairs.get(i).map(|pair| pair.0.clone()));
        }
        keys
    }

    /// "each free and each once, and ends"
    fn chain(&self, first: u64) -> Option<BTreeSet<u64>> {
        let mut chain = BTreeSet::new();
        let mut slot = first;
        while slot != 0 {
            let next = self.free(slot)?;
            if !chain.insert(slot) {
                return None;
            }
            slot = next;
        }
        Some(chain)
    }
}

/// "a node at depth 0 has only zero children, one above it has one more child
/// than separators"
fn has_children(node: &Node, above: u64) -> bool {
    node.children
        .iter()
        .all(|child| (*child == 0) == (above == 0))
}

/// "every node but the root has 4 to 8 separators, the root 0 to 8 and at
/// least 1 where depth is above 0"
fn has_separators(node: &Node, is_root: bool, depth: u64) -> bool {
    let least = match (is_root, depth) {
        (true, 0) => 0,
        (true, _) => 1,
        (false, _) => 4,
    };
    (least..=8).contains(&node.pairs.len())
}

/// The node whose standard form these bytes are: nothing but what the writer
/// makes is taken.
fn standard(bytes: &[u8]) -> Option<Node> {
    let (child, mut rest) = cut(bytes, 8)?;
    let mut node = Node {
        children: vec![number(child)],
        pairs: Vec::new(),
    };
    while !rest.is_empty() {
        let (value, behind) = cut(rest, 8)?;
        let (length, behind) = key_length(behind)?;
        let (key, behind) = cut(behind, length)?;
        let (child, behind) = cut(behind, 8)?;
        if number(value) == 0 || node.pairs.len() == 8 {
            return None;
        }
        node.pairs.push((key.to_vec(), number(value)));
        node.children.push(number(child));
        rest = behind;
    }
    Some(node)
}

/// "A key of 0 to 254 bytes has its length in that byte; from 255 on, the byte
/// is 0xFF and a u32 length follows. Keys here: 0 to 288 bytes."
fn key_length(bytes: &[u8]) -> Option<(usize, &[u8])> {
    let (byte, rest) = cut(bytes, 1)?;
    if byte[0] < 255 {
        return Some((byte[0].into(), rest));
    }
    let (size, rest) = cut(rest, 4)?;
    let length = number(size) as usize;
    (255..=288).contains(&length).then_some((length, rest))
}

fn cut(bytes: &[u8], n: usize) -> Option<(&[u8], &[u8])> {
    (n <= bytes.len()).then(|| bytes.split_at(n))
}
