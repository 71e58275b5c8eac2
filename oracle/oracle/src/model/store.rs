//! The tree with its slots, as 01 tells a batch.

use super::codec;
use crate::runs::runs;
use crate::shape::{Place, Shape};
use original::btree::glue::{Change, Pair};

/// "Every node but the root has 4 to 8 separators."
const FEWEST: usize = 4;
const MOST: usize = codec::MOST_SEPARATORS;

/// "No room", in 01's table.
pub const NO_ROOM: u8 = 9;

/// A node in its slot.
pub struct Node {
    pub slot: u32,
    pub separators: Vec<Pair>,
    pub children: Vec<Node>,
}

/// A store: the tree and the free chain.
pub struct Store {
    pub root: Option<Node>,
    depth: u32,
    /// The free chain, its first slot last.
    free: Vec<u32>,
}

/// A batch's answer.
#[derive(Debug, PartialEq, Eq)]
pub struct Answer {
    pub number: u8,
    pub applied: usize,
}

impl Store {
    /// "Formatting takes a count [...] and chains 1, 2, ... in order."
    pub fn format(count: u32) -> Self {
        Store {
            root: None,
            depth: 0,
            free: (1..=count).rev().collect(),
        }
    }

    /// A store with this tree in it, audited or not, and no free slot.
    pub fn holding(root: Node, depth: u32) -> Self {
        Store {
            root: Some(root),
            depth,
            free: Vec::new(),
        }
    }

    /// Runs a batch whose records aren't refused.
    pub fn batch(&mut self, records: &[Change]) -> Answer {
        if self.root.is_none() {
            self.write_empty_root();
        }
        let mut applied = 0;
        for run in runs(records) {
            let last = run.last().expect("a run isn't empty");
            if !self.run(last) {
                let number = NO_ROOM;
                return Answer { number, applied };
            }
            applied += run.len();
        }
        Answer { number: 0, applied }
    }

    fn write_empty_root(&mut self) {
        self.root = Some(Node {
            slot: take(&mut self.free),
            separators: Vec::new(),
            children: Vec::new(),
        });
    }

    /// "A run of equal keys acts as its last record." False if there's no room.
    fn run(&mut self, last: &Change) -> bool {
        match last {
            Change::Set(key, value) => self.set(key, *value),
            Change::Dereference(key) => {
                self.dereference(key);
                true
            }
        }
    }

    fn set(&mut self, key: &[u8], value: u64) -> bool {
        let root = self.root.as_mut().expect("a batch writes a root first");
        if let Some(present) = root.value_mut(key) {
            *present = value;
            return true;
        }
        if root.slots_needed(key) > self.free.len() {
            return false;
        }
        if let Some(promoted) = root.insert((key.to_vec(), value), &mut self.free) {
            self.grow(promoted);
        }
        true
    }

    /// "A split root's slot stays the left half; [...] the new root last."
    fn grow(&mut self, (separator, right): (Pair, Node)) {
        let left = self.root.take().expect("the root was split");
        self.root = Some(Node {
            slot: take(&mut self.free),
            separators: vec![separator],
            children: vec![left, right],
        });
        self.depth += 1;
    }

    fn dereference(&mut self, key: &[u8]) {
        let root = self.root.as_mut().expect("a batch writes a root first");
        root.remove(key, &mut self.free);
        if root.separators.is_empty() && !root.children.is_empty() {
            self.free.push(root.slot);
            self.root = Some(root.children.remove(0));
            self.depth -= 1;
        }
    }

    /// The tree by place, with node bytes.
    pub fn shape(&self) -> Shape {
        Shape {
            depth: self.depth,
            root: self.root.as_ref().map(Node::place),
        }
    }

    /// The free chain from its first slot on.
    pub fn free_chain(&self) -> Vec<u64> {
        self.free.iter().rev().map(|&slot| slot.into()).collect()
    }
}

/// "Taking a slot takes the first free one."
fn take(free: &mut Vec<u32>) -> u32 {
    free.pop().expect("room was made sure of")
}

impl Node {
    fn is_full(&self) -> bool {
        self.separators.len() == MOST
    }

    /// How many separators are below the key.
    fn below(&self, key: &[u8]) -> usize {
        self.separators.iter().filter(|(k, _)| &k[..] < key).count()
    }

    fn holds(&self, at: usize, key: &[u8]) -> bool {
        self.separators.get(at).is_some_and(|(k, _)| k == key)
    }

    /// The value under a key.
    pub fn value(&self, key: &[u8]) -> Option<u64> {
        let at = self.below(key);
        if self.holds(at, key) {
            return Some(self.separators[at].1);
        }
        self.children.get(at)?.value(key)
    }

    fn value_mut(&mut self, key: &[u8]) -> Option<&mut u64> {
        let at = self.below(key);
        if self.holds(at, key) {
            return Some(&mut self.separators[at].1);
        }
        self.children.get_mut(at)?.value_mut(key)
    }

    /// "As many slots as there are full nodes in an unbroken run from the leaf
    /// upward, one more if that run takes in the root."
    fn slots_needed(&self, key: &[u8]) -> usize {
        let way = self.way_down(key);
        let run = way.iter().rev().take_while(|node| node.is_full()).count();
        run + usize::from(run == way.len())
    }

    fn way_down(&self, key: &[u8]) -> Vec<&Node> {
        let mut way = vec![self];
        let mut node = self;
        while let Some(child) = node.children.get(node.below(key)) {
            way.push(child);
            node = child;
        }
        way
    }

    /// Puts an absent key into its leaf; gives what is promoted.
    fn insert(&mut self, new: Pair, free: &mut Vec<u32>) -> Option<(Pair, Node)> {
        let at = self.below(&new.0);
        if self.children.is_empty() {
            self.separators.insert(at, new);
        } else {
            let (separator, right) = self.children[at].insert(new, free)?;
            self.separators.insert(at, separator);
            self.children.insert(at + 1, right);
        }
        (self.separators.len() > MOST).then(|| self.split(free))
    }

    /// Of nine separators the middle one goes up: the new one if it came in at
    /// index 4, old index 3 if it came in below, old index 4 if above. "Both
    /// halves hold 4."
    fn split(&mut self, free: &mut Vec<u32>) -> (Pair, Node) {
        let separators = self.separators.split_off(FEWEST + 1);
        let promoted = self.separators.pop().expect("five are left");
        let children = if self.children.is_empty() {
            Vec::new()
        } else {
            self.children.split_off(FEWEST + 1)
        };
        let right = Node {
            slot: take(free),
            separators,
            children,
        };
        (promoted, right)
    }

    fn remove(&mut self, key: &[u8], free: &mut Vec<u32>) {
        let at = self.below(key);
        let is_here = self.holds(at, key);
        if self.children.is_empty() {
            if is_here {
                self.separators.remove(at);
            }
            return;
        }
        if is_here {
            // "The largest key of the left child takes its place."
            self.separators[at] = self.children[at].remove_last(free);
        } else {
            self.children[at].remove(key, free);
        }
        self.settle(at, free);
    }

    fn remove_last(&mut self, free: &mut Vec<u32>) -> Pair {
        if self.children.is_empty() {
            return self
                .separators
                .pop()
                .expect("no node but the root is empty");
        }
        let last = self.children.len() - 1;
        let pair = self.children[last].remove_last(free);
        self.settle(last, free);
        pair
    }

    /// "Below 4 in a child: if the left sibling holds 5 or more, borrow its
    /// last; else if the right does, borrow its first; else merge with the
    /// right sibling, or with the left if there is no right."
    fn settle(&mut self, at: usize, free: &mut Vec<u32>) {
        if self.children[at].separators.len() >= FEWEST {
            return;
        }
        let last = self.children.len() - 1;
        if at > 0 && self.can_lend(at - 1) {
            self.borrow_from_left(at);
        } else if at < last && self.can_lend(at + 1) {
            self.borrow_from_right(at);
        } else if at < last {
            self.merge(at, free);
        } else {
            self.merge(at - 1, free);
        }
    }

    fn can_lend(&self, at: usize) -> bool {
        self.children[at].separators.len() > FEWEST
    }

    fn borrow_from_left(&mut self, at: usize) {
        let left = &mut self.children[at - 1];
        let lent = left.separators.pop().expect("it holds 5 or more");
        let child = left.children.pop();
        let down = std::mem::replace(&mut self.separators[at - 1], lent);
        self.children[at].separators.insert(0, down);
        if let Some(child) = child {
            self.children[at].children.insert(0, child);
        }
    }

    fn borrow_from_right(&mut self, at: usize) {
        let right = &mut self.children[at + 1];
        let lent = right.separators.remove(0);
        let child = (!right.children.is_empty()).then(|| right.children.remove(0));
        let down = std::mem::replace(&mut self.separators[at], lent);
        self.children[at].separators.push(down);
        self.children[at].children.extend(child);
    }

    /// Merges the children at `left` and behind it. "The right slot of the pair
    /// is freed."
    fn merge(&mut self, left: usize, free: &mut Vec<u32>) {
        let down = self.separators.remove(left);
        let right = self.children.remove(left + 1);
        let node = &mut self.children[left];
        node.separators.push(down);
        node.separators.extend(right.separators);
        node.children.extend(right.children);
        free.push(right.slot);
    }

    fn place(&self) -> Place {
        let children: Vec<u64> = self.children.iter().map(|c| c.slot.into()).collect();
        let bytes = codec::write(&children, &self.separators);
        Place {
            slot: self.slot.into(),
            bytes: bytes.expect("the keys and values of a tree can be written"),
            separators: self.separators.clone(),
            children: self.children.iter().map(Node::place).collect(),
        }
    }
}
