//! Cursor walks on the original, and the same steps asked of our reading.

use crate::history::Keys;
use crate::model::cursor::{Cursor as OurCursor, Place};
use crate::model::store::Store;
use crate::random::Random;
use original::btree::glue::{Cursor, Original, Pair};

/// A step of a walk, with the original's answer.
#[derive(Clone, Debug, PartialEq, Eq)]
pub enum Step {
    /// A new cursor, at Start.
    Start,
    /// To End.
    End,
    Seek(Vec<u8>),
    Forward(Option<Pair>),
    Backward(Option<Pair>),
}

/// Where the original's iterator would part from 01.
#[derive(Clone, Copy, PartialEq, Eq)]
enum Mind {
    /// A new one, or at Start with a batch since: backward is D1, D3.
    NotBackward,
    /// It has just answered none backward: going to the end is D2.
    NotToEnd,
    /// Both.
    Neither,
    Nothing,
}

/// A walk on the original. It stays on 01's ground: D1, D2 and D3 (see
/// DIFFERENCES.md) aren't stepped on.
pub struct Walk<'a> {
    tree: &'a Original,
    cursor: Cursor<'a>,
    mind: Mind,
}

impl<'a> Walk<'a> {
    pub fn new(tree: &'a Original) -> Self {
        Walk {
            tree,
            cursor: tree.cursor().expect("the tree is good"),
            mind: Mind::NotBackward,
        }
    }

    /// A batch has run since the last step.
    pub fn batch_ran(&mut self) {
        if self.mind == Mind::NotToEnd {
            self.mind = Mind::Neither;
        }
    }

    /// One step of any kind that is allowed here.
    pub fn any_step(&mut self, keys: Keys, random: &mut Random) -> Step {
        let may_go_back = !matches!(self.mind, Mind::NotBackward | Mind::Neither);
        let may_go_to_end = !matches!(self.mind, Mind::NotToEnd | Mind::Neither);
        match random.below(100) {
            0..=4 => self.start(),
            5..=9 if may_go_to_end => self.end(),
            10..=24 => self.seek(keys.draw(false, random)),
            25..=64 if may_go_back => self.backward(),
            _ => self.forward(),
        }
    }

    pub fn start(&mut self) -> Step {
        *self = Walk::new(self.tree);
        Step::Start
    }

    pub fn end(&mut self) -> Step {
        self.cursor.seek_to_last().expect("the tree is good");
        self.mind = Mind::Nothing;
        Step::End
    }

    pub fn seek(&mut self, key: Vec<u8>) -> Step {
        self.cursor.seek(&key).expect("the tree is good");
        self.mind = Mind::Nothing;
        Step::Seek(key)
    }

    pub fn forward(&mut self) -> Step {
        let found = self.cursor.forward().expect("the tree is good");
        self.mind = Mind::Nothing;
        Step::Forward(found)
    }

    pub fn backward(&mut self) -> Step {
        let found = self.cursor.backward().expect("the tree is good");
        self.mind = match found {
            Some(_) => Mind::Nothing,
            None => Mind::NotToEnd,
        };
        Step::Backward(found)
    }
}

/// Takes the same step by 01; the answer has to be the same.
pub fn retrace(step: &Step, cursor: &mut OurCursor, store: &Store) {
    match step {
        Step::Start => cursor.0 = Place::Start,
        Step::End => cursor.0 = Place::End,
        Step::Seek(key) => cursor.0 = Place::Seeked(key.clone()),
        Step::Forward(found) => assert_eq!(cursor.forward(store), *found, "forward"),
        Step::Backward(found) => assert_eq!(cursor.backward(store), *found, "backward"),
    }
}
