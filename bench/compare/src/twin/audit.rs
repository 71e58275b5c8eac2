//! 01's audit: the tree in order of its keys, then the free chain.

use super::codec::{compare, take_standard};
use super::layout::{mark_words, node_in, u32_at, Header, DEEPEST, LEAST, NODE, ORDER};
use super::{number, Answer};

/// How many slots are reached; the marks tell which.
pub fn audit(store: &[u8], marks: &mut [u64]) -> Answer<usize> {
    let header = Header::of(store)?;
    if marks.len() < mark_words(header.count) {
        return Err(number::FEW_MARKS);
    }
    marks.fill(0);
    let reached = Visit { store, header, marks, last: None, reached: 0 }.all();
    if reached.is_err() {
        marks.fill(0);
    }
    reached
}

struct Visit<'a, 'm> {
    store: &'a [u8],
    header: Header,
    marks: &'m mut [u64],
    /// The last key so far, in order.
    last: Option<&'a [u8]>,
    reached: usize,
}

/// Whether what an audit asks is so.
fn require(holds: bool) -> Answer<()> {
    if holds {
        Ok(())
    } else {
        Err(number::FAILS)
    }
}

impl Visit<'_, '_> {
    fn all(mut self) -> Answer<usize> {
        let Header { root, depth, .. } = self.header;
        if root == 0 {
            require(depth == 0)?;
        } else {
            require(depth <= DEEPEST)?;
            let least = usize::from(depth != 0);
            self.tree(root, depth, least)?;
        }
        self.chain()?;
        Ok(self.reached)
    }

    /// A slot may be reached once.
    fn claim(&mut self, slot: u64) -> Answer<()> {
        let at = slot as usize - 1;
        let (word, bit) = (&mut self.marks[at / 64], 1 << (at % 64));
        require(*word & bit == 0)?;
        *word |= bit;
        self.reached += 1;
        Ok(())
    }

    /// The node in a slot and all below it; `least` is the fewest separators that it may have.
    fn tree(&mut self, slot: u64, depth: u32, least: usize) -> Answer<()> {
        let bytes = self.header.slot(self.store, slot)?;
        self.claim(slot)?;
        let node = node_in(bytes)?;
        require(is_zero(&bytes[NODE + node.len()..]))?;
        let mut rest = node;
        let mut count = 0;
        self.child(&mut rest, depth)?;
        while !rest.is_empty() {
            self.separator(&mut rest)?;
            self.child(&mut rest, depth)?;
            count += 1;
        }
        require((least..=ORDER).contains(&count))
    }

    /// The child at the front of the rest, with all below it.
    #[inline]
    fn child(&mut self, rest: &mut &[u8], depth: u32) -> Answer<()> {
        let (child, behind) = rest.split_first_chunk().ok_or(number::FAILS)?;
        *rest = behind;
        let child = u64::from_le_bytes(*child);
        if depth == 0 {
            return require(child == 0);
        }
        self.tree(child, depth - 1, LEAST)
    }
}

impl<'a> Visit<'a, '_> {
    /// The separator at the front of the rest, in standard form, its key above the last one.
    #[inline]
    fn separator(&mut self, rest: &mut &'a [u8]) -> Answer<()> {
        let key = take_standard(rest)?.key;
        require(self.last.is_none_or(|last| compare(last, key).is_lt()))?;
        self.last = Some(key);
        Ok(())
    }

    /// The free chain has exactly the slots that are not reached. A reached slot has a length above 0, and a chain that ends names no
    /// slot twice: so its length tells.
    fn chain(&self) -> Answer<()> {
        let mut slot = self.header.first_free;
        for _ in self.reached..self.header.count as usize {
            let bytes = self.header.slot(self.store, slot.into())?;
            require(u32_at(bytes, 0) == 0 && is_zero(&bytes[8..]))?;
            slot = u32_at(bytes, 4);
        }
        require(slot == 0)
    }
}

/// Many bytes are tested at a time, which the compiler turns into wide loads.
#[inline]
fn is_zero(bytes: &[u8]) -> bool {
    let (parts, rest) = bytes.as_chunks::<128>();
    parts.iter().all(|part| union(part) == 0) && union(rest) == 0
}

#[inline(always)]
fn union(bytes: &[u8]) -> u8 {
    bytes.iter().fold(0, |all, byte| all | byte)
}
