//! The tree while a batch changes it: the way to a key, and the edits of a slot's bytes that all changes are made of.

use super::codec::{compare, put_size, size_bytes};
use super::layout::{
    put_u32, put_u64, start_of, u32_at, u64_at, Header, DEEPEST, LONG, LONGEST_KEY, NODE, ORDER, SLOT,
};
use std::cmp::Ordering;
use std::ops::Range;

/// A node on the way to a key: where its bytes begin in the store, and the separator at which the search left it. The child in front
/// of that separator is the next node on the way.
#[derive(Clone, Copy, Default)]
pub struct Step {
    pub start: usize,
    pub at: usize,
}

/// A separator on its way to another node, and the child that goes with it.
pub struct Carried {
    bytes: [u8; 8 + 5 + LONGEST_KEY + 8],
    len: usize,
}

impl Carried {
    const EMPTY: Carried = Carried { bytes: [0; 8 + 5 + LONGEST_KEY + 8], len: 0 };

    /// A new separator of a leaf.
    pub fn hold(&mut self, key: &[u8], value: u64) {
        let size = size_bytes(key.len());
        put_u64(&mut self.bytes, 0, value);
        put_size(&mut &mut self.bytes[8..], key.len());
        self.bytes[8 + size..][..key.len()].copy_from_slice(key);
        self.hold_child(8 + size + key.len(), 0);
    }

    pub fn copy(&mut self, separator: &[u8]) {
        self.bytes[..separator.len()].copy_from_slice(separator);
        self.len = separator.len();
    }

    fn hold_child(&mut self, at: usize, child: u64) {
        put_u64(&mut self.bytes, at, child);
        self.len = at + 8;
    }

    pub fn add_child(&mut self, child: u64) {
        self.hold_child(self.len, child);
    }

    pub fn take_child(&mut self) -> u64 {
        self.len -= 8;
        u64_at(&self.bytes, self.len)
    }

    pub fn bytes(&self) -> &[u8] {
        &self.bytes[..self.len]
    }
}

/// Where a separator's key begins and how long it is.
#[inline(always)]
fn key_of(node: &[u8], at: usize) -> (usize, usize) {
    let len = usize::from(node[at + 8]);
    if len < LONG {
        (at + 9, len)
    } else {
        (at + 13, u32_at(node, at + 9) as usize)
    }
}

/// Where the next separator begins; the child in front of it is the one behind this separator.
#[inline(always)]
pub fn behind(node: &[u8], at: usize) -> usize {
    let (key, len) = key_of(node, at);
    key + len + 8
}

/// Where the first separator begins.
pub const FIRST: usize = 8;

pub fn count(node: &[u8]) -> usize {
    let mut at = FIRST;
    let mut count = 0;
    while at < node.len() {
        at = behind(node, at);
        count += 1;
    }
    count
}

/// Where the last separator in front of a place begins.
pub fn before(node: &[u8], place: usize) -> usize {
    let mut at = FIRST;
    loop {
        let next = behind(node, at);
        if next == place {
            return at;
        }
        at = next;
    }
}

/// Where each separator begins, and where a ninth would.
pub fn separators(node: &[u8]) -> [usize; ORDER + 1] {
    let mut all = [FIRST; ORDER + 1];
    for i in 0..ORDER {
        all[i + 1] = behind(node, all[i]);
    }
    all
}

/// The first separator from `at` on whose key is not below, and whether it is the key.
#[inline(always)]
fn search(node: &[u8], mut at: usize, key: &[u8]) -> (usize, bool) {
    while at < node.len() {
        let (start, len) = key_of(node, at);
        match compare(key, &node[start..start + len]) {
            Ordering::Greater => at = start + len + 8,
            Ordering::Equal => return (at, true),
            Ordering::Less => return (at, false),
        }
    }
    (at, false)
}

pub struct Tree<'a> {
    pub bytes: &'a mut [u8],
    pub root: u64,
    pub depth: usize,
    first_free: u32,
    pub free: usize,
    /// The way to the last key, from the leaf up.
    pub path: [Step; DEEPEST as usize + 2],
    /// Whether a key is searched from where the last one was found; else from the root, as the library does.
    resumes: bool,
    /// The level at which it ended; none where a node on it was split, joined or filled up since.
    pub ended: Option<usize>,
    pub carried: Carried,
}

impl<'a> Tree<'a> {
    pub fn new(bytes: &'a mut [u8], header: Header, reached: usize, resumes: bool) -> Tree<'a> {
        Tree {
            bytes,
            root: header.root,
            depth: header.depth as usize,
            first_free: header.first_free,
            free: header.count as usize - reached,
            path: Default::default(),
            resumes,
            ended: None,
            carried: Carried::EMPTY,
        }
    }

    /// Writes the header's fields, which are kept apart while a batch runs.
    pub fn close(self) {
        put_u64(self.bytes, 0, self.root);
        put_u32(self.bytes, 8, self.depth as u32);
        put_u32(self.bytes, 16, self.first_free);
    }

    #[inline(always)]
    pub fn node(&self, start: usize) -> &[u8] {
        let len = u32_at(self.bytes, start - NODE) as usize;
        &self.bytes[start..start + len]
    }

    pub fn child_before(&self, step: Step) -> u64 {
        u64_at(self.bytes, step.start + step.at - 8)
    }

    /// Goes to a key. The level where it stands, or none where it is absent; then the way ends in the leaf.
    pub fn find(&mut self, key: &[u8]) -> Option<usize> {
        let (mut level, mut step) = self.resume(key);
        loop {
            let (at, is_there) = search(self.node(step.start), step.at, key);
            step.at = at;
            self.path[level] = step;
            if is_there || level == 0 {
                self.ended = Some(level);
                return is_there.then_some(level);
            }
            step = Step { start: node_start(self.child_before(step)), at: FIRST };
            level -= 1;
        }
    }

    /// The lowest node of the old way that has the key below it. Keys never fall in a batch, so the search goes on where it stopped.
    #[inline]
    fn resume(&self, key: &[u8]) -> (usize, Step) {
        let lowest = self.ended.filter(|_| self.resumes).unwrap_or(self.depth);
        for level in lowest..self.depth {
            if self.is_below(key, self.path[level + 1]) {
                return (level, self.path[level]);
            }
        }
        (self.depth, Step { start: node_start(self.root), at: FIRST })
    }

    fn is_below(&self, key: &[u8], Step { start, at }: Step) -> bool {
        let node = self.node(start);
        if at == node.len() {
            return false;
        }
        let (other, len) = key_of(node, at);
        compare(key, &node[other..other + len]).is_lt()
    }

    // ---- edits

    /// Makes room for `new` bytes in place of `old` ones; what stands behind them moves. Bytes behind the node stay zero.
    pub fn resize(&mut self, start: usize, at: usize, old: usize, new: usize) {
        let slot = &mut self.bytes[start - NODE..][..SLOT];
        let len = u32_at(slot, 0) as usize;
        slot.copy_within(NODE + at + old..NODE + len, NODE + at + new);
        let new_len = len + new - old;
        if new_len < len {
            slot[NODE + new_len..NODE + len].fill(0);
        }
        put_u32(slot, 0, new_len as u32);
    }

    pub fn truncate(&mut self, start: usize, len: usize) {
        let old = u32_at(self.bytes, start - NODE) as usize;
        self.bytes[start + len..start + old].fill(0);
        put_u32(self.bytes, start - NODE, len as u32);
    }

    /// Puts what is carried in place of `old` bytes.
    pub fn put_carried(&mut self, step: Step, old: usize) {
        let new = self.carried.len;
        self.resize(step.start, step.at, old, new);
        self.bytes[step.start + step.at..][..new].copy_from_slice(self.carried.bytes());
    }

    pub fn carry(&mut self, start: usize, part: Range<usize>) {
        self.carried.copy(&self.bytes[start + part.start..start + part.end]);
    }

    // ---- slots

    /// Takes the first free slot, which the caller fills: its bytes behind the next free slot's number are zero.
    pub fn take(&mut self) -> u64 {
        let slot = u64::from(self.first_free);
        self.first_free = u32_at(self.bytes, node_start(slot));
        self.free -= 1;
        slot
    }

    pub fn release(&mut self, slot: u64) {
        let start = node_start(slot);
        let len = u32_at(self.bytes, start - NODE) as usize;
        self.bytes[start - NODE..start + len].fill(0);
        put_u32(self.bytes, start, self.first_free);
        self.first_free = slot as u32;
        self.free += 1;
    }
}

/// Where the bytes of a slot's node begin.
#[inline(always)]
pub fn node_start(slot: u64) -> usize {
    start_of(slot) + NODE
}
