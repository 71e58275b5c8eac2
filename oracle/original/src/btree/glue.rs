//! The way into the original: a tree fed with batches and asked by lookups
//! and cursors; a node read and written by itself. Nothing here decides what
//! a tree does; it only hands over and hands back.

use super::{
    commit_overlay::BTreeChangeSet,
    node::{Child, Node, Separator, SeparatorInner},
    BTreeHeader, BTreeIterator, BTreeTable, Entry,
};
use crate::{
    column::TablesRef,
    db::{CommitOverlay, Operation},
    index::Address,
    log::{LogOverlays, LogWriter},
    options::{ColumnOptions, Metadata, Options},
    parking_lot::RwLock,
    table::ValueTable,
};

pub use crate::error::{Error, Result};
pub use crate::table::Numbering;

/// The one column.
const COLUMN: u8 = 0;

/// Separators and children that a node has room for, as the original says.
pub const ORDER: usize = super::ORDER;
pub const ORDER_CHILD: usize = super::ORDER_CHILD;

/// A key and the caller's address for it.
pub type Pair = (Vec<u8>, u64);

/// A node's contents: its separators, and all nine places for children.
#[derive(Clone, Debug, PartialEq, Eq)]
pub struct NodeParts {
    pub children: [u64; ORDER_CHILD],
    pub separators: Vec<Pair>,
}

/// One record of a batch.
#[derive(Clone, Debug, PartialEq, Eq)]
pub enum Change {
    Set(Vec<u8>, u64),
    Dereference(Vec<u8>),
}

impl Change {
    pub fn key(&self) -> &[u8] {
        match self {
            Change::Set(key, _) | Change::Dereference(key) => key,
        }
    }
}

/// A batch in the original's own form.
pub struct Changes(BTreeChangeSet);

impl Changes {
    pub fn new(changes: &[Change]) -> Result<Self> {
        let mut set = BTreeChangeSet::new(COLUMN);
        for change in changes {
            set.push(operation(change))?;
        }
        Ok(Changes(set))
    }
}

/// A node in the original's own form.
#[derive(Clone)]
pub struct Held(Node);

impl Held {
    /// What the original does with the bytes of a node that it has fetched.
    pub fn read(bytes: Vec<u8>) -> Result<Self> {
        Node::from_encoded(bytes).map(Held)
    }

    /// How many separators it has.
    pub fn count(&self) -> usize {
        self.0.last_separator_index().map_or(0, |last| last + 1)
    }
}

/// Reads node bytes with the original's `from_encoded`.
pub fn read_node(bytes: &[u8]) -> Result<NodeParts> {
    Node::from_encoded(bytes.to_vec()).map(|node| parts(&node))
}

/// Writes a node with the original's `write_node_plan`.
pub fn write_node(node: &NodeParts) -> Result<Vec<u8>> {
    let tree = Original::new(Numbering::AsTheyCome)?;
    let mut log = LogWriter::new(1);
    let address = tree
        .table
        .with_locked(|tables| BTreeTable::write_node_plan(tables, node_of(node), &mut log, None))?;
    let address = address.expect("a new node is written");
    Ok(tree.node(address.as_u64()).expect("it was just written"))
}

fn parts(node: &Node) -> NodeParts {
    let child = |child: &Child| child.entry_index.map_or(0, |address| address.as_u64());
    NodeParts {
        children: std::array::from_fn(|at| child(&node.children[at])),
        separators: node
            .separators
            .iter()
            .map_while(|separator| separator.separator.as_ref())
            .map(|inner| (inner.key.clone(), inner.value.as_u64()))
            .collect(),
    }
}

fn node_of(parts: &NodeParts) -> Node {
    let mut node = Node::default();
    for (at, &child) in parts.children.iter().enumerate().filter(|(_, &c)| c != 0) {
        node.children[at].entry_index = Some(Address::from_u64(child));
    }
    for (at, (key, value)) in parts.separators.iter().enumerate() {
        let inner = SeparatorInner {
            key: key.clone(),
            value: Address::from_u64(*value),
        };
        node.separators[at] = Separator {
            modified: true,
            separator: Some(inner),
        };
    }
    node
}

/// A tree of the original's.
pub struct Original {
    table: BTreeTable,
    log: RwLock<LogOverlays>,
    overlay: RwLock<Vec<CommitOverlay>>,
}

impl Original {
    /// An empty tree: no root.
    pub fn new(numbering: Numbering) -> Result<Self> {
        let columns = || vec![ColumnOptions::default()];
        let options = Options {
            columns: columns(),
            ..Options::default()
        };
        let metadata = Metadata { columns: columns() };
        let tables = vec![ValueTable::new(numbering)];
        Ok(Original {
            table: BTreeTable::open(COLUMN, tables, &options, &metadata)?,
            log: RwLock::new(LogOverlays::new()),
            overlay: RwLock::new(Vec::new()),
        })
    }

    /// Runs a batch as the original does: sorted by key, then from the front.
    pub fn batch(&self, changes: &[Change]) -> Result<()> {
        self.run(Changes::new(changes)?)
    }

    /// The same, for changes that are in the original's form already.
    pub fn run(&self, mut changes: Changes) -> Result<()> {
        let id = self.log.read().last_record_id(COLUMN) + 1;
        let mut log = LogWriter::new(id);
        changes.0.write_plan(&self.table, &mut log, &mut 0)?;
        self.log.write().set_last_record_id(id);
        Ok(())
    }

    /// Writes a node over the one of a number, as the original does.
    pub fn write(&self, number: u64, mut node: Held) -> Result<()> {
        node.0.changed = true;
        let mut log = LogWriter::new(0);
        let at = Some(Address::from_u64(number));
        let tables = self.table.tables.read();
        let tables = self.table.locked(&tables);
        BTreeTable::write_node_plan(tables, node.0, &mut log, at)?;
        Ok(())
    }

    /// Looks a key up.
    pub fn get(&self, key: &[u8]) -> Result<Option<u64>> {
        let found = self
            .table
            .with_locked(|tables| BTreeTable::get(key, &self.log, tables))?;
        Ok(found.map(|bytes| number(&bytes)))
    }

    /// A new iterator over the tree. It may stay open while batches run.
    pub fn cursor(&self) -> Result<Cursor<'_>> {
        BTreeIterator::new(&self.table, COLUMN, &self.log, &self.overlay).map(Cursor)
    }

    /// The root's number (0 for none) and the depth.
    pub fn header(&self) -> Result<(u64, u32)> {
        let header = self
            .table
            .with_locked(|tables| BTreeTable::btree_header(&self.log, tables))?;
        Ok((header.root.as_u64(), header.depth))
    }

    /// The bytes of a node.
    pub fn node(&self, number: u64) -> Option<Vec<u8>> {
        self.with_table(|table| table.node(number))
    }

    /// How many nodes are kept, reached or not.
    pub fn node_count(&self) -> usize {
        self.with_table(|table| table.node_count())
    }

    /// The free numbers, in the order in which they would be taken.
    pub fn free_chain(&self) -> Vec<u64> {
        self.with_table(|table| table.free_chain())
    }

    /// Puts a header in place, good or bad.
    pub fn put_header(&self, root: u64, depth: u32) {
        let root = Address::from_u64(root);
        let mut entry = Entry::empty();
        entry.write_header(&BTreeHeader { root, depth });
        self.with_table(|table| table.set_header(entry.encoded.as_ref()));
    }

    /// Puts node bytes in place, good or bad.
    pub fn put_node(&self, number: u64, bytes: &[u8]) {
        self.with_table(|table| table.set_node(number, bytes));
    }

    fn with_table<R>(&self, ask: impl Fn(&ValueTable) -> R) -> R {
        self.table
            .with_locked(|tables: TablesRef| Ok(ask(&tables.tables[0])))
            .expect("asking the table can't fail")
    }
}

fn operation(change: &Change) -> Operation<Vec<u8>, Vec<u8>> {
    match change {
        Change::Set(key, value) => Operation::Set(key.clone(), value.to_le_bytes().to_vec()),
        Change::Dereference(key) => Operation::Dereference(key.clone()),
    }
}

fn number(bytes: &[u8]) -> u64 {
    u64::from_le_bytes(bytes.try_into().expect("a value is 8 bytes"))
}

/// The original's iterator.
pub struct Cursor<'a>(BTreeIterator<'a>);

impl Cursor<'_> {
    pub fn seek(&mut self, key: &[u8]) -> Result<()> {
        self.0.seek(key)
    }

    pub fn seek_to_last(&mut self) -> Result<()> {
        self.0.seek_to_last()
    }

    pub fn forward(&mut self) -> Result<Option<Pair>> {
        Ok(self.0.next()?.map(pair))
    }

    pub fn backward(&mut self) -> Result<Option<Pair>> {
        Ok(self.0.prev()?.map(pair))
    }
}

fn pair((key, value): (Vec<u8>, Vec<u8>)) -> Pair {
    let value = number(&value);
    (key, value)
}
