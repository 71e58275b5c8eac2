//! Nodes and node bytes, well-formed and damaged.

use crate::model::codec::{add_separator, MOST_CHILDREN, MOST_SEPARATORS};
use crate::random::Random;
use original::btree::glue::{NodeParts, Pair};

/// Key lengths where the length byte, or what is allowed, changes.
pub const EDGES: [usize; 8] = [253, 254, 255, 256, 286, 287, 288, 289];

/// How long keys are.
#[derive(Clone, Copy)]
pub enum Lengths {
    /// 0 to 6 bytes.
    Short,
    /// One of [`EDGES`], or short.
    Edges,
    /// As `Edges`, 288 at most.
    EdgesAllowed,
}

impl Lengths {
    fn draw(self, random: &mut Random) -> usize {
        let edges = match self {
            Lengths::Short => return random.below(7),
            Lengths::Edges => &EDGES[..],
            Lengths::EdgesAllowed => &EDGES[..EDGES.len() - 1],
        };
        if random.percent(30) {
            random.below(7)
        } else {
            *random.pick(edges)
        }
    }
}

/// A number of separators, more often small.
pub fn few(most: usize, random: &mut Random) -> usize {
    random.between(0, most).min(random.between(0, most))
}

/// A u64 that isn't 0, of any size.
pub fn address(random: &mut Random) -> u64 {
    (random.any() >> random.below(64)).max(1)
}

/// Separators, not sorted: reading and writing don't look at the order.
pub fn separators(count: usize, lengths: Lengths, random: &mut Random) -> Vec<Pair> {
    (0..count)
        .map(|_| {
            let length = lengths.draw(random);
            (random.bytes(length), address(random))
        })
        .collect()
}

/// Children for this many places: none, or all, or some.
fn children(places: usize, random: &mut Random) -> [u64; MOST_CHILDREN] {
    let present = *random.pick(&[0, 0, 100, 100, 100, 60]);
    let mut children = [0; MOST_CHILDREN];
    for child in &mut children[..places] {
        if random.percent(present) {
            *child = address(random);
        }
    }
    children
}

/// A node to write, children past the separators plus one now and then.
pub fn node(count: usize, lengths: Lengths, random: &mut Random) -> NodeParts {
    let places = if random.percent(25) {
        MOST_CHILDREN
    } else {
        count + 1
    };
    NodeParts {
        children: children(places, random),
        separators: separators(count, lengths, random),
    }
}

/// Any node of at most this many separators.
pub fn any_node(most: usize, lengths: Lengths, random: &mut Random) -> NodeParts {
    node(few(most.min(MOST_SEPARATORS), random), lengths, random)
}

/// Bytes with these parts, whether or not the writer would make them.
pub fn bytes_of(node: &NodeParts) -> Vec<u8> {
    let mut bytes = node.children[0].to_le_bytes().to_vec();
    for (at, (key, value)) in node.separators.iter().enumerate() {
        add_separator(&mut bytes, key, *value);
        bytes.extend(node.children[at + 1].to_le_bytes());
    }
    bytes
}

/// How bytes are damaged.
#[derive(Clone, Copy)]
pub enum Damage {
    /// Cut anywhere.
    Truncated,
    /// One byte another one.
    Changed,
    /// A few bytes behind.
    Appended,
    /// A u32 length behind 0xFF where one byte would do.
    LongSize,
    /// Ends within such a length.
    SizeCut,
    /// A separator in between whose value is 0, its key of any length, and
    /// perhaps not all there.
    ZeroValue,
}

impl Damage {
    pub const ALL: [Damage; 6] = [
        Damage::Truncated,
        Damage::Changed,
        Damage::Appended,
        Damage::LongSize,
        Damage::SizeCut,
        Damage::ZeroValue,
    ];
}

/// A node's bytes, damaged.
pub fn damaged(node: &NodeParts, damage: Damage, random: &mut Random) -> Vec<u8> {
    let mut bytes = bytes_of(node);
    match damage {
        Damage::Truncated => bytes.truncate(random.below(bytes.len())),
        Damage::Changed => change(&mut bytes, random),
        Damage::Appended => {
            let count = random.between(1, 20);
            bytes.extend(random.bytes(count));
        }
        Damage::LongSize => return with_long_size(node, random),
        Damage::SizeCut => {
            bytes.extend(random.any().to_le_bytes());
            bytes.push(0xFF);
            let count = random.below(4);
            bytes.extend(random.bytes(count));
        }
        Damage::ZeroValue => add_zero_value(&mut bytes, random),
    }
    bytes
}

fn change(bytes: &mut [u8], random: &mut Random) {
    let at = random.below(bytes.len());
    let any = random.any() as u8;
    bytes[at] = *random.pick(&[0, 1, 2, 9, 254, 255, any]);
}

/// The node's bytes with one length written as a long one.
fn with_long_size(node: &NodeParts, random: &mut Random) -> Vec<u8> {
    let long = random.below(node.separators.len().max(1));
    let mut bytes = node.children[0].to_le_bytes().to_vec();
    for (at, (key, value)) in node.separators.iter().enumerate() {
        if at == long {
            add_long_separator(&mut bytes, key, *value);
        } else {
            add_separator(&mut bytes, key, *value);
        }
        bytes.extend(node.children[at + 1].to_le_bytes());
    }
    bytes
}

/// A separator whose length stands behind 0xFF.
pub fn add_long_separator(bytes: &mut Vec<u8>, key: &[u8], value: u64) {
    bytes.extend(value.to_le_bytes());
    bytes.push(0xFF);
    bytes.extend((key.len() as u32).to_le_bytes());
    bytes.extend(key);
}

fn add_zero_value(bytes: &mut Vec<u8>, random: &mut Random) {
    let length: usize = *random.pick(&[0, 1, 2, 5, 20, 254, 255, 300]);
    let present = *random.pick(&[length, length, length.saturating_sub(1), length + 3]);
    bytes.extend(0u64.to_le_bytes());
    if length < 255 && random.percent(70) {
        bytes.push(length as u8);
    } else {
        bytes.push(0xFF);
        bytes.extend((length as u32).to_le_bytes());
    }
    bytes.extend(random.bytes(present));
}
