//! Node writings: a node, and the bytes that the original's writer makes.

use super::frame::{self, Frame};
use super::List;
use crate::nodes::{any_node, node, Lengths};
use crate::random::Random;
use original::btree::glue::{write_node, NodeParts, ORDER_CHILD};

/// The seed of the stored list.
pub const SEED: u64 = 0x5EED_00B1;

/// No block is longer.
const LIMIT: usize = 4096;

pub fn list() -> List {
    let mut random = Random::new(SEED);
    let blocks = frame::distinct(nodes(&mut random).iter().map(case).collect());
    frame::list("node_writings.bin", &blocks, blocks.len(), LIMIT)
}

fn nodes(random: &mut Random) -> Vec<NodeParts> {
    let mut nodes = vec![];
    for count in 0..=8 {
        for _ in 0..10 {
            nodes.push(node(count, Lengths::Short, random));
        }
        nodes.push(node(count, Lengths::EdgesAllowed, random));
    }
    for _ in 0..5500 {
        nodes.push(any_node(8, Lengths::Short, random));
    }
    for _ in 0..150 {
        nodes.push(any_node(4, Lengths::EdgesAllowed, random));
    }
    nodes
}

fn case(node: &NodeParts) -> Frame {
    let mut frame = Frame::default();
    let given = ORDER_CHILD - node.children.iter().rev().take_while(|c| **c == 0).count();
    frame.byte(node.separators.len());
    frame.byte(given);
    node.children[..given].iter().for_each(|c| frame.long(*c));
    for (key, value) in &node.separators {
        frame.long(*value);
        frame.part(key);
    }
    let written = write_node(node).expect("the original writes any node");
    frame.part(&written);
    frame
}
