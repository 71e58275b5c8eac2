//! A set.

use super::edit::{count, node_start, separators, Step, Tree, FIRST};
use super::layout::{put_u32, put_u64, LEAST, NODE, ORDER};
use super::{number, Answer};
use std::cmp::Ordering;
use std::ops::Range;

impl Tree<'_> {
    pub fn set(&mut self, key: &[u8], value: u64) -> Answer<()> {
        if let Some(level) = self.find(key) {
            let Step { start, at } = self.path[level];
            put_u64(self.bytes, start + at, value);
            return Ok(());
        }
        // No set needs more than a slot for each level and a root.
        if self.free < self.depth + 2 && self.free < self.slots_needed() {
            return Err(number::NO_ROOM);
        }
        self.carried.hold(key, value);
        self.insert_carried();
        Ok(())
    }

    fn is_full(&self, start: usize) -> bool {
        count(self.node(start)) == ORDER
    }

    /// How many nodes on the way split, and a root where all do.
    fn slots_needed(&self) -> usize {
        let levels = self.depth + 1;
        let full = self.path[..levels].iter().take_while(|step| self.is_full(step.start)).count();
        full + usize::from(full == levels)
    }

    /// Puts what is carried into the leaf, and what a split promotes into the node above.
    fn insert_carried(&mut self) {
        for level in 0..=self.depth {
            let step = self.path[level];
            if !self.is_full(step.start) {
                return self.put_carried(step, 0);
            }
            self.ended = None;
            self.split(step);
        }
        self.grow();
    }

    /// Splits a full node around the middle one of its nine separators, which is carried on with the right half's slot.
    fn split(&mut self, step: Step) {
        let Step { start, at } = step;
        let all = separators(self.node(start));
        let right = self.take();
        match at.cmp(&all[LEAST]) {
            Ordering::Less => {
                let (middle, rest) = (all[LEAST - 1], all[LEAST] - 8);
                self.move_to_new(start, rest, all[ORDER], right, None);
                self.exchange(step, middle..rest);
            }
            Ordering::Equal => {
                let child = self.carried.take_child();
                self.move_to_new(start, all[LEAST], all[ORDER], right, Some(child));
                self.truncate(start, all[LEAST]);
            }
            Ordering::Greater => {
                let (middle, rest) = (all[LEAST], all[LEAST + 1] - 8);
                self.move_to_new(start, rest, all[ORDER], right, None);
                self.put_carried(Step { start: node_start(right), at: at - rest }, 0);
                self.carry(start, middle..rest);
                self.truncate(start, middle);
            }
        }
        self.carried.add_child(right);
    }

    /// Cuts a node off behind a separator, puts in what is carried, and carries that separator instead.
    fn exchange(&mut self, step: Step, last: Range<usize>) {
        let new = self.carried.bytes().len();
        self.truncate(step.start, last.end);
        self.put_carried(step, 0);
        self.carry(step.start, last.start + new..last.end + new);
        self.truncate(step.start, last.start + new);
    }

    /// A part of a node becomes the node of a slot just taken, behind a first child where one is named.
    fn move_to_new(&mut self, start: usize, from: usize, to: usize, slot: u64, first: Option<u64>) {
        let new = node_start(slot);
        let front = if first.is_some() { 8 } else { 0 };
        self.bytes.copy_within(start + from..start + to, new + front);
        if let Some(child) = first {
            put_u64(self.bytes, new, child);
        }
        put_u32(self.bytes, new - NODE, (front + to - from) as u32);
    }

    /// A new root over the old one and what is carried.
    fn grow(&mut self) {
        let slot = self.take();
        let start = node_start(slot);
        put_u32(self.bytes, start - NODE, 8);
        put_u64(self.bytes, start, self.root);
        self.put_carried(Step { start, at: FIRST }, 0);
        self.root = slot;
        self.depth += 1;
    }
}
