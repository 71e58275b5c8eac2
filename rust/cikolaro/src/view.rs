//! The tree of an audited store, to look at. This is Rust and not proved; it reads only what the proved audit has passed. A node's
//! bytes are read and written by the proved functions.

use crate::{node, Refusal, Store, HEADER_SIZE, SLOT_SIZE};

/// A node and what stands below it.
#[derive(Clone, Debug, PartialEq, Eq)]
pub struct Node {
    pub slot: u32,
    pub separators: Vec<(Vec<u8>, u64)>,
    /// Empty in a leaf; else one more than separators.
    pub children: Vec<Node>,
}

/// A store's tree and its free slots.
#[derive(Clone, Debug, PartialEq, Eq)]
pub struct Tree {
    pub count: u32,
    pub depth: u32,
    pub root: Option<Node>,
    /// In the order in which they are taken.
    pub free: Vec<u32>,
}

impl Node {
    /// How many nodes there are from here down.
    pub fn nodes(&self) -> usize {
        1 + self.children.iter().map(Node::nodes).sum::<usize>()
    }

    /// The node's own bytes, in standard form: those that its slot holds. A node that no slot holds may be refused with 16, 4 or 5.
    ///
    /// ```
    /// use cikolaro::{view::Node, Refusal};
    ///
    /// let mut leaf = Node { slot: 1, separators: vec![(b"ab".to_vec(), 5)], children: vec![] };
    /// assert_eq!(leaf.bytes()?.len(), 27);
    /// leaf.separators[0].1 = 0;
    /// assert_eq!(leaf.bytes().unwrap_err(), Refusal::BadValue);
    /// # Ok::<(), Refusal>(())
    /// ```
    pub fn bytes(&self) -> Result<Vec<u8>, Refusal> {
        let children: Vec<u64> = self.children.iter().map(|child| u64::from(child.slot)).collect();
        node::write(&children, &self.separators)
    }

    /// Calls f with each node and how far it is below this one, parents first.
    pub fn visit(&self, below: usize, f: &mut impl FnMut(&Node, usize)) {
        f(self, below);
        for child in &self.children {
            child.visit(below + 1, f);
        }
    }
}

/// The tree of a store that passes the audit.
///
/// ```
/// use cikolaro::{view, Batch, Store};
///
/// let mut store = Store::new(4)?;
/// let mut batch = Batch::new();
/// for key in 1..=9 {
///     batch.set([key], 1);
/// }
/// store.apply(&batch)?;
/// let tree = view::tree(&store)?;
/// let root = tree.root.unwrap();
/// assert_eq!((root.slot, root.children[0].slot, root.children[1].slot), (3, 1, 2));
/// assert_eq!(tree.free, [4]);
/// # Ok::<(), cikolaro::Error>(())
/// ```
pub fn tree<B: AsRef<[u8]>>(store: &Store<B>) -> Result<Tree, Refusal> {
    store.audit()?;
    let bytes = store.bytes();
    let root = number(bytes, 0, 8) as u32;
    let mut free = Vec::new();
    let mut slot = number(bytes, 16, 4) as u32;
    while slot != 0 {
        free.push(slot);
        slot = number(bytes, start(slot) + 4, 4) as u32;
    }
    Ok(Tree {
        count: store.count(),
        depth: number(bytes, 8, 4) as u32,
        root: (root != 0).then(|| below(bytes, root)),
        free,
    })
}

fn number(bytes: &[u8], at: usize, width: usize) -> u64 {
    bytes[at..at + width].iter().rev().fold(0, |n, &b| n << 8 | u64::from(b))
}

fn start(slot: u32) -> usize {
    HEADER_SIZE + SLOT_SIZE * (slot as usize - 1)
}

/// The node in a slot, and what stands below it.
fn below(bytes: &[u8], slot: u32) -> Node {
    let from = start(slot) + 4;
    let length = number(bytes, start(slot), 4) as usize;
    let read = node::read_strict(&bytes[from..from + length]).expect("the audit has passed it");
    Node {
        slot,
        separators: read.separators.iter().map(|(key, value)| (key.to_vec(), *value)).collect(),
        children: read.children.iter().filter(|child| **child != 0).map(|child| below(bytes, *child as u32)).collect(),
    }
}
