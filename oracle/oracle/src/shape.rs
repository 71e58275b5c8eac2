//! A tree as it stands: every node with its number and bytes, by place.

use original::btree::glue::{read_node, Original, Pair};

/// A node at its place in the tree.
#[derive(Clone, Debug, PartialEq, Eq)]
pub struct Place {
    pub slot: u64,
    pub bytes: Vec<u8>,
    pub separators: Vec<Pair>,
    /// None at depth 0, otherwise one more than there are separators.
    pub children: Vec<Place>,
}

/// A whole tree; no root, no place.
#[derive(Clone, Debug, PartialEq, Eq)]
pub struct Shape {
    pub depth: u32,
    pub root: Option<Place>,
}

impl Shape {
    /// What the original holds, read with the original's reader.
    pub fn of(tree: &Original) -> Shape {
        let (root, depth) = tree.header().expect("the header is readable");
        let root = (root != 0).then(|| place(tree, root, depth));
        Shape { depth, root }
    }

    /// All entries in key order.
    pub fn entries(&self) -> Vec<Pair> {
        let mut entries = Vec::new();
        if let Some(root) = &self.root {
            root.add_entries(&mut entries);
        }
        entries
    }

    /// The keys in nodes above depth 0.
    pub fn inner_keys(&self) -> Vec<Vec<u8>> {
        let mut keys = Vec::new();
        if let Some(root) = &self.root {
            root.add_inner_keys(&mut keys);
        }
        keys
    }

    /// How many nodes there are.
    pub fn node_count(&self) -> usize {
        self.root.as_ref().map_or(0, Place::node_count)
    }
}

impl Place {
    fn add_entries(&self, entries: &mut Vec<Pair>) {
        for (at, pair) in self.separators.iter().enumerate() {
            if let Some(child) = self.children.get(at) {
                child.add_entries(entries);
            }
            entries.push(pair.clone());
        }
        if let Some(child) = self.children.last() {
            child.add_entries(entries);
        }
    }

    fn add_inner_keys(&self, keys: &mut Vec<Vec<u8>>) {
        if !self.children.is_empty() {
            keys.extend(self.separators.iter().map(|(key, _)| key.clone()));
            self.children.iter().for_each(|c| c.add_inner_keys(keys));
        }
    }

    fn node_count(&self) -> usize {
        1 + self.children.iter().map(Place::node_count).sum::<usize>()
    }
}

fn place(tree: &Original, slot: u64, depth: u32) -> Place {
    let bytes = tree.node(slot).expect("a child is kept");
    let parts = read_node(&bytes).expect("a kept node is readable");
    let reached = if depth == 0 {
        0
    } else {
        parts.separators.len() + 1
    };
    let children = parts.children[..reached]
        .iter()
        .map(|&child| place(tree, child, depth - 1))
        .collect();
    Place {
        slot,
        bytes,
        separators: parts.separators,
        children,
    }
}

impl Shape {
    /// The same with every slot and child number 0: what is left is equal for
    /// two trees that differ in their numbering only.
    pub fn without_numbers(&self) -> Shape {
        Shape {
            depth: self.depth,
            root: self.root.as_ref().map(Place::without_numbers),
        }
    }
}

impl Place {
    fn without_numbers(&self) -> Place {
        let mut bytes = self.bytes.clone();
        for start in self.child_places() {
            bytes[start..start + 8].fill(0);
        }
        Place {
            slot: 0,
            bytes,
            separators: self.separators.clone(),
            children: self.children.iter().map(Place::without_numbers).collect(),
        }
    }

    /// Where the child numbers stand in the bytes.
    fn child_places(&self) -> Vec<usize> {
        let mut places = vec![0];
        let mut at = 0;
        for (key, _) in &self.separators {
            let head = if key.len() < 255 { 9 } else { 13 };
            at += 8 + head + key.len();
            places.push(at);
        }
        places
    }
}
