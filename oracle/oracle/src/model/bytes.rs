//! Walks over node bytes of any kind, as 01 tells lookup and cursor steps.

use super::codec::{self, Reading, KEY_TOO_LONG, LONGEST_KEY};
use super::cursor::Place;
use original::btree::glue::Pair;
use std::collections::BTreeMap;

/// "Audit fails; walk meets a bad node, depth above 7."
pub const BAD: u8 = 8;

const DEEPEST: u32 = 7;
const SHORTEST_NODE: usize = 8;
const LONGEST_NODE: usize = 2480;

/// A store as a walk meets it: a slot without bytes is a free one.
pub struct Bytes {
    pub root: u64,
    pub depth: u32,
    pub count: u64,
    pub nodes: BTreeMap<u64, Vec<u8>>,
}

/// A node that was read, with its bytes.
struct Read<'a> {
    bytes: &'a [u8],
    node: Reading,
}

impl Read<'_> {
    fn key(&self, at: usize) -> &[u8] {
        &self.bytes[self.node.separators[at].key.clone()]
    }

    fn pair(&self, at: usize) -> Pair {
        (self.key(at).to_vec(), self.node.separators[at].value)
    }

    fn count(&self) -> usize {
        self.node.separators.len()
    }

    /// The first index whose key isn't below this one, else the count.
    fn position(&self, key: &[u8]) -> usize {
        let found = (0..self.count()).find(|at| self.key(*at) >= key);
        found.unwrap_or(self.count())
    }

    /// "The first index whose key is above the place (forward At, backward
    /// Seeked) or not below it (forward Seeked, backward At), 0 for forward
    /// Start, the separator count for backward End or if none is such."
    fn index(&self, place: &Place, way: Way) -> usize {
        let first = |is_such: &dyn Fn(&[u8]) -> bool| {
            let found = (0..self.count()).find(|at| is_such(self.key(*at)));
            found.unwrap_or(self.count())
        };
        match (place, way) {
            (Place::Start, _) => 0,
            (Place::End, _) => self.count(),
            (Place::At(key), Way::Forward) | (Place::Seeked(key), Way::Backward) => {
                first(&|other| other > &key[..])
            }
            (Place::Seeked(key), Way::Forward) | (Place::At(key), Way::Backward) => {
                first(&|other| other >= &key[..])
            }
        }
    }
}

/// Where a step goes.
#[derive(Clone, Copy, PartialEq, Eq)]
pub enum Way {
    Forward,
    Backward,
}

fn length(place: &Place) -> usize {
    match place {
        Place::Start | Place::End => 0,
        Place::At(key) | Place::Seeked(key) => key.len(),
    }
}

/// Where a step begins.
pub enum From<'a> {
    /// Forward from Start.
    Start,
    /// Forward from Seeked.
    Seeked(&'a [u8]),
    /// Backward from End.
    End,
}

impl Bytes {
    /// "A node read must have a slot number 1 to count, a length of 8 to 2,480,
    /// readable bytes and children that fit its depth (none at 0; separators
    /// plus one above); else 8." Readable is what the strict reading accepts:
    /// "The audit and the walks change to the strict one" (C-16).
    fn read(&self, slot: u64, depth: u32) -> Result<Read<'_>, u8> {
        let bytes = self.nodes.get(&slot).filter(|_| slot <= self.count);
        let bytes = bytes.ok_or(BAD)?;
        if !(SHORTEST_NODE..=LONGEST_NODE).contains(&bytes.len()) {
            return Err(BAD);
        }
        let node = codec::read_strict(bytes).map_err(|_| BAD)?;
        let fits = node
            .children
            .iter()
            .all(|child| (*child == 0) == (depth == 0));
        fits.then_some(Read { bytes, node }).ok_or(BAD)
    }

    /// "A depth above 7 is 8, root or not; otherwise no root means absent."
    fn has_root(&self) -> Result<bool, u8> {
        if self.depth > DEEPEST {
            return Err(BAD);
        }
        Ok(self.root != 0)
    }

    pub fn lookup(&self, key: &[u8]) -> Result<Option<u64>, u8> {
        if key.len() > LONGEST_KEY {
            return Err(KEY_TOO_LONG);
        }
        if !self.has_root()? {
            return Ok(None);
        }
        let mut slot = self.root;
        for depth in (0..=self.depth).rev() {
            let read = self.read(slot, depth)?;
            let at = read.position(key);
            if at < read.count() && read.key(at) == key {
                return Ok(Some(read.node.separators[at].value));
            }
            slot = read.node.children[at];
        }
        Ok(None)
    }

    /// One step, and whether a key equal to the place was met above depth 0
    /// (there the original stops: D4).
    pub fn step(&self, from: &From) -> Result<(Option<Pair>, bool), u8> {
        let mut found = None;
        let mut met = false;
        if !self.has_root()? {
            return Ok((found, met));
        }
        let mut slot = self.root;
        for depth in (0..=self.depth).rev() {
            let read = self.read(slot, depth)?;
            let (index, candidate) = match from {
                From::Start => (0, Some(0)),
                From::Seeked(key) => {
                    let index = read.position(key);
                    met |= depth > 0 && index < read.count() && read.key(index) == *key;
                    (index, Some(index))
                }
                From::End => (read.count(), read.count().checked_sub(1)),
            };
            if let Some(at) = candidate.filter(|at| *at < read.count()) {
                found = Some(read.pair(at));
            }
            slot = read.node.children[index];
        }
        Ok((found, met))
    }

    /// A step from any place: "the last candidate is the answer".
    pub fn walk(&self, place: &Place, way: Way) -> Result<Option<Pair>, u8> {
        if length(place) > LONGEST_KEY {
            return Err(KEY_TOO_LONG);
        }
        let ends = match way {
            Way::Forward => Place::End,
            Way::Backward => Place::Start,
        };
        let mut last = None;
        if !self.has_root()? || *place == ends {
            return Ok(last);
        }
        let mut slot = self.root;
        for depth in (0..=self.depth).rev() {
            let read = self.read(slot, depth)?;
            let index = read.index(place, way);
            let candidate = match way {
                Way::Forward => Some(index),
                Way::Backward => index.checked_sub(1),
            };
            if let Some(at) = candidate.filter(|at| *at < read.count()) {
                last = Some(read.pair(at));
            }
            slot = read.node.children[index];
        }
        Ok(last)
    }
}
