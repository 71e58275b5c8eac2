//! The cursor, as 01 tells its steps.

use super::store::{Node, Store};
use original::btree::glue::Pair;

/// "The cursor is a place (Start, End, At length, Seeked length) beside a key."
#[derive(Clone, Debug, PartialEq, Eq)]
pub enum Place {
    Start,
    End,
    At(Vec<u8>),
    Seeked(Vec<u8>),
}

/// A cursor over a store.
pub struct Cursor(pub Place);

impl Cursor {
    pub fn forward(&mut self, store: &Store) -> Option<Pair> {
        let found = match &self.0 {
            Place::End => None,
            place => step(store, |node| forward_index(node, place), Some),
        };
        self.0 = moved(&found, Place::End);
        found
    }

    pub fn backward(&mut self, store: &Store) -> Option<Pair> {
        let found = match &self.0 {
            Place::Start => None,
            place => step(
                store,
                |node| backward_index(node, place),
                |index| index.checked_sub(1),
            ),
        };
        self.0 = moved(&found, Place::Start);
        found
    }
}

/// "An entry moves the cursor to At; none moves it to End (forward) or Start
/// (backward)."
fn moved(found: &Option<Pair>, none: Place) -> Place {
    match found {
        Some((key, _)) => Place::At(key.clone()),
        None => none,
    }
}

/// From the root to depth 0; the last candidate is the answer.
fn step(
    store: &Store,
    index: impl Fn(&Node) -> usize,
    candidate: impl Fn(usize) -> Option<usize>,
) -> Option<Pair> {
    let mut last = None;
    let mut next = store.root.as_ref();
    while let Some(node) = next {
        let index = index(node);
        last = candidate(index)
            .and_then(|at| node.separators.get(at))
            .or(last);
        next = node.children.get(index);
    }
    last.cloned()
}

fn forward_index(node: &Node, place: &Place) -> usize {
    match place {
        Place::Start => 0,
        Place::At(key) => first(node, |other| other > &key[..]),
        Place::Seeked(key) => first(node, |other| other >= &key[..]),
        Place::End => unreachable!("End has no step forward"),
    }
}

fn backward_index(node: &Node, place: &Place) -> usize {
    match place {
        Place::End => node.separators.len(),
        Place::Seeked(key) => first(node, |other| other > &key[..]),
        Place::At(key) => first(node, |other| other >= &key[..]),
        Place::Start => unreachable!("Start has no step backward"),
    }
}

/// The first index whose key is such, the separator count if none is.
fn first(node: &Node, is_such: impl Fn(&[u8]) -> bool) -> usize {
    node.separators
        .iter()
        .position(|(key, _)| is_such(key))
        .unwrap_or(node.separators.len())
}
