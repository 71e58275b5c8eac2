//! A dereference.

use super::edit::{before, behind, count, node_start, Step, Tree, FIRST};
use super::layout::{u64_at, LEAST};

/// Two neighbours, and where the separator between them stands in the node above.
struct Pair {
    over: usize,
    /// From the separator to the right one's number.
    at: usize,
    end: usize,
    left: u64,
    right: u64,
}

impl Tree<'_> {
    pub fn dereference(&mut self, key: &[u8]) {
        let Some(level) = self.find(key) else { return };
        if level == 0 {
            let Step { start, at } = self.path[0];
            let end = behind(self.node(start), at);
            self.resize(start, at, end - at, 0);
        } else {
            self.replace_by_largest_below(level);
        }
        self.rebalance();
    }

    /// The largest key of the left child takes the separator's place.
    fn replace_by_largest_below(&mut self, level: usize) {
        let replaced = self.path[level];
        let mut child = self.child_before(replaced);
        for below in (0..level).rev() {
            let start = node_start(child);
            let at = self.node(start).len();
            self.path[below] = Step { start, at };
            child = u64_at(self.bytes, start + at - 8);
        }
        let Step { start, at: len } = self.path[0];
        let last = before(self.node(start), len);
        self.path[0].at = last;
        self.carry(start, last..len - 8);
        self.truncate(start, last);
        let old = behind(self.node(replaced.start), replaced.at) - 8 - replaced.at;
        self.put_carried(replaced, old);
    }

    /// From the leaf up, while a node but the root has too few separators.
    fn rebalance(&mut self) {
        for level in 0..self.depth {
            if LEAST <= count(self.node(self.path[level].start)) {
                return;
            }
            self.ended = None;
            self.fill_up(self.path[level + 1]);
        }
        let root = node_start(self.root);
        if 0 < self.depth && self.node(root).len() == FIRST {
            let child = u64_at(self.bytes, root);
            self.release(self.root);
            self.root = child;
            self.depth -= 1;
        }
    }

    /// The child at a place of the way has one separator too few.
    fn fill_up(&mut self, step: Step) {
        let left = self.pair_left_of(step);
        if let Some(pair) = &left {
            let len = self.node(node_start(pair.left)).len();
            if LEAST < count(self.node(node_start(pair.left))) {
                return self.borrow_from_left(pair, len);
            }
        }
        match self.pair_right_of(step) {
            Some(pair) if LEAST < count(self.node(node_start(pair.right))) => self.borrow_from_right(&pair),
            Some(pair) => self.join(&pair),
            None => self.join(&left.expect("a node above has two children")),
        }
    }

    fn pair_left_of(&self, step: Step) -> Option<Pair> {
        let node = self.node(step.start);
        if step.at == FIRST {
            return None;
        }
        let at = before(node, step.at);
        let (end, left) = (step.at - 8, u64_at(node, at - 8));
        Some(Pair { over: step.start, at, end, left, right: u64_at(node, end) })
    }

    fn pair_right_of(&self, step: Step) -> Option<Pair> {
        let node = self.node(step.start);
        if step.at == node.len() {
            return None;
        }
        let (at, end) = (step.at, behind(node, step.at) - 8);
        Some(Pair { over: step.start, at, end, left: u64_at(node, at - 8), right: u64_at(node, end) })
    }

    /// Copies a part of one node to a place of another that has room for it.
    fn copy(&mut self, from: usize, len: usize, to: usize) {
        self.bytes.copy_within(from..from + len, to);
    }

    /// The last of the left goes up, the separator above goes down to the front of the right.
    fn borrow_from_left(&mut self, pair: &Pair, len: usize) {
        let (left, right) = (node_start(pair.left), node_start(pair.right));
        let size = pair.end - pair.at;
        self.resize(right, 0, 0, 8 + size);
        self.copy(left + len - 8, 8, right);
        self.copy(pair.over + pair.at, size, right + 8);
        let last = before(self.node(left), len);
        let taken = len - 8 - last;
        self.resize(pair.over, pair.at, size, taken);
        self.copy(left + last, taken, pair.over + pair.at);
        self.truncate(left, last);
    }

    /// The first of the right goes up, the separator above goes down to the end of the left.
    fn borrow_from_right(&mut self, pair: &Pair) {
        let (left, right) = (node_start(pair.left), node_start(pair.right));
        let (size, len) = (pair.end - pair.at, self.node(left).len());
        self.resize(left, len, 0, size + 8);
        self.copy(pair.over + pair.at, size, left + len);
        self.copy(right, 8, left + len + size);
        let taken = behind(self.node(right), FIRST) - 8 - FIRST;
        self.resize(pair.over, pair.at, size, taken);
        self.copy(right + FIRST, taken, pair.over + pair.at);
        self.resize(right, 0, 8 + taken, 0);
    }

    /// Left, the separator above and right become one node; the right slot is free.
    fn join(&mut self, pair: &Pair) {
        let (left, right) = (node_start(pair.left), node_start(pair.right));
        let (size, len, more) = (pair.end - pair.at, self.node(left).len(), self.node(right).len());
        self.resize(left, len, 0, size + more);
        self.copy(pair.over + pair.at, size, left + len);
        self.copy(right, more, left + len + size);
        self.release(pair.right);
        self.resize(pair.over, pair.at, size + 8, 0);
    }
}
