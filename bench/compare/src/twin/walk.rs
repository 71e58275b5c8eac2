//! Lookup and cursor: walks from the root that test every node they read.

use super::codec::{compare, take_child, take_standard, Separator};
use super::layout::{node_in, Header, DEEPEST, LONGEST_KEY, ORDER};
use super::{number, Answer};
use std::cmp::Ordering;

/// Where a search leaves a node: between these two separators, at this child.
struct Passed<'a> {
    before: Option<Separator<'a>>,
    behind: Option<Separator<'a>>,
    child: u64,
}

/// Reads all of a node, which has to be in standard form. `stops` is asked of each key until it says yes.
#[inline(always)] // so that a search pays only for the parts of the answer that it uses
fn pass<'a>(node: &'a [u8], is_leaf: bool, mut stops: impl FnMut(&'a [u8]) -> bool) -> Answer<Passed<'a>> {
    let mut rest = node;
    let mut passed = Passed { before: None, behind: None, child: fitting_child(&mut rest, is_leaf)? };
    for _ in 0..ORDER {
        if rest.is_empty() {
            break;
        }
        let separator = take_standard(&mut rest)?;
        let child = fitting_child(&mut rest, is_leaf)?;
        if passed.behind.is_some() {
            continue;
        }
        if stops(separator.key) {
            passed.behind = Some(separator);
        } else {
            passed.before = Some(separator);
            passed.child = child;
        }
    }
    if rest.is_empty() {
        Ok(passed)
    } else {
        Err(number::FAILS)
    }
}

/// A leaf has no child, any other node has all of them.
#[inline(always)]
fn fitting_child(rest: &mut &[u8], is_leaf: bool) -> Answer<u64> {
    let child = take_child(rest)?;
    if (child == 0) == is_leaf {
        Ok(child)
    } else {
        Err(number::FAILS)
    }
}

/// The header of a store that a walk may begin in.
fn header_for_walk(store: &[u8], key_len: usize) -> Answer<Header> {
    let header = Header::of(store)?;
    if LONGEST_KEY < key_len {
        return Err(number::LONG_KEY);
    }
    if DEEPEST < header.depth {
        return Err(number::FAILS);
    }
    Ok(header)
}

pub fn lookup(store: &[u8], key: &[u8]) -> Answer<Option<u64>> {
    let header = header_for_walk(store, key.len())?;
    if header.root == 0 {
        return Ok(None);
    }
    let mut child = header.root;
    for depth in (0..=header.depth).rev() {
        let node = node_in(header.slot(store, child)?)?;
        let mut is_there = false;
        let passed = pass(node, depth == 0, |other| {
            let order = compare(key, other);
            is_there = order == Ordering::Equal;
            order != Ordering::Greater
        });
        let passed = passed.map_err(|_| number::FAILS)?;
        if is_there {
            return Ok(passed.behind.map(|separator| separator.value));
        }
        child = passed.child;
    }
    Ok(None)
}

#[derive(Clone, Copy, Debug, PartialEq, Eq)]
pub enum Place {
    Start,
    End,
    At(usize),
    Seeked(usize),
}

#[derive(Clone, Copy)]
pub struct Cursor {
    pub place: Place,
    pub key: [u8; LONGEST_KEY],
}

impl Cursor {
    pub const START: Cursor = Cursor { place: Place::Start, key: [0; LONGEST_KEY] };

    /// The key that it is at, or was put to.
    pub fn key(&self) -> &[u8] {
        &self.key[..self.key_len()]
    }

    fn key_len(&self) -> usize {
        match self.place {
            Place::Start | Place::End => 0,
            Place::At(len) | Place::Seeked(len) => len,
        }
    }

    /// Moves to what a step has found.
    fn settle(&mut self, found: Option<Separator>, place_without: Place) -> Option<u64> {
        let key = found.map_or(&[][..], |separator| separator.key);
        self.key[..key.len()].copy_from_slice(key);
        self.key[key.len()..].fill(0);
        self.place = found.map_or(place_without, |_| Place::At(key.len()));
        found.map(|separator| separator.value)
    }
}

/// The last separator on the way down that `candidate` names in a node.
#[inline(always)]
fn descend<'a>(
    store: &'a [u8],
    header: Header,
    mut stops: impl FnMut(&'a [u8]) -> bool,
    candidate: impl Fn(&Passed<'a>) -> Option<Separator<'a>>,
) -> Answer<Option<Separator<'a>>> {
    if header.root == 0 {
        return Ok(None);
    }
    let mut child = header.root;
    let mut found = None;
    for depth in (0..=header.depth).rev() {
        let node = node_in(header.slot(store, child)?)?;
        let passed = pass(node, depth == 0, &mut stops).map_err(|_| number::FAILS)?;
        found = candidate(&passed).or(found);
        child = passed.child;
    }
    Ok(found)
}

pub fn forward(store: &[u8], cursor: &mut Cursor) -> Answer<Option<u64>> {
    let header = header_for_walk(store, cursor.key_len())?;
    let key = cursor.key();
    let found = match cursor.place {
        Place::Start => descend(store, header, |_| true, |passed| passed.behind)?,
        Place::At(_) => descend(store, header, |other| compare(other, key).is_gt(), |passed| passed.behind)?,
        Place::Seeked(_) => descend(store, header, |other| compare(other, key).is_ge(), |passed| passed.behind)?,
        Place::End => None,
    };
    Ok(cursor.settle(found, Place::End))
}

pub fn backward(store: &[u8], cursor: &mut Cursor) -> Answer<Option<u64>> {
    let header = header_for_walk(store, cursor.key_len())?;
    let key = cursor.key();
    let found = match cursor.place {
        Place::Start => None,
        Place::At(_) => descend(store, header, |other| compare(other, key).is_ge(), |passed| passed.before)?,
        Place::Seeked(_) => descend(store, header, |other| compare(other, key).is_gt(), |passed| passed.before)?,
        Place::End => descend(store, header, |_| false, |passed| passed.before)?,
    };
    Ok(cursor.settle(found, Place::Start))
}
