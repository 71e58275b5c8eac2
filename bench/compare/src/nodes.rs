//! Node reading and writing, by the sides that have nodes: the nodes of a loaded store, without the store around them.

use crate::clock::timed;
use crate::report;
use crate::rows::{in_turn, Row};
use crate::sides::proved::{self, Proved};
use crate::sides::slots::Face;
use crate::sides::twin::Twin;
use crate::sides::{ORIGINAL, PROVED, TWIN};
use crate::twin::codec::{self, Node};
use crate::twin::layout::{node_in, u32_at, HEADER, SLOT};
use std::hint::black_box;

/// So few that they stay in a cache: the codec's time is asked for, not the memory's.
const NODES: usize = 1_000;
const PASSES: usize = 10;

/// The bytes of nodes that a store holds.
pub fn of_store(store: &[u8]) -> Vec<&[u8]> {
    let used = store[HEADER..].chunks_exact(SLOT).filter(|slot| u32_at(slot, 0) != 0);
    used.take(NODES).map(|slot| node_in(slot).expect("a good slot")).collect()
}

/// The same nodes in memory.
pub fn in_memory(nodes: &[&[u8]]) -> Vec<Node> {
    nodes.iter().map(|node| Node::of(&codec::read(node).expect("a good node"))).collect()
}

/// Time for each node of several passes over all of them.
fn each<T>(nodes: &[T], mut work: impl FnMut(&T)) -> f64 {
    let all = || (0..PASSES).for_each(|_| nodes.iter().for_each(&mut work));
    timed(all).1 / (PASSES * nodes.len()) as f64
}

pub fn reading(store: &[u8], rounds: usize) -> Row {
    let nodes = of_store(store);
    let mut row = Row::new(report::READING);
    in_turn(&mut [PROVED, TWIN, ORIGINAL], 0..rounds, |side| match *side {
        PROVED => row.offer(PROVED, read_by::<Proved>(&nodes)),
        TWIN => row.offer(TWIN, read_by::<Twin>(&nodes)),
        _ => original::read(&nodes, &mut row),
    });
    row
}

/// Every node has to have as many separators as the twin finds.
pub fn read_by<F: Face>(nodes: &[&[u8]]) -> f64 {
    assert!(nodes.iter().all(|node| F::read_node(node) == Twin::read_node(node)), "other separators are read");
    each(nodes, |node| _ = black_box(F::read_node(node)))
}

pub fn writing(store: &[u8], rounds: usize) -> Row {
    let bytes = of_store(store);
    let nodes = in_memory(&bytes);
    let lent: Vec<_> = nodes.iter().map(proved::lent).collect();
    let mut row = Row::new(report::WRITING);
    in_turn(&mut [PROVED, TWIN, ORIGINAL], 0..rounds, |side| match *side {
        PROVED => row.offer(PROVED, write_by(Proved::write_node, &lent, &bytes)),
        TWIN => row.offer(TWIN, write_by(|node: &Node, dst| node.write(dst).expect("no refusal"), &nodes, &bytes)),
        _ => original::write(&bytes, &mut row),
    });
    row
}

/// Every node, written, has to give the bytes that it was read from.
pub fn write_by<N>(write: impl Fn(&N, &mut [u8]) -> usize, nodes: &[N], bytes: &[&[u8]]) -> f64 {
    let mut dst = [0; SLOT];
    for (node, bytes) in nodes.iter().zip(bytes) {
        let size = write(node, &mut dst);
        assert!(dst[..size] == **bytes, "other bytes are written");
    }
    each(nodes, |node| {
        black_box(write(node, &mut dst));
        black_box(&dst);
    })
}

#[cfg(feature = "original")]
mod original {
    use super::PASSES;
    use crate::clock::timed;
    use crate::rows::Row;
    use crate::sides::ORIGINAL;
    use original::btree::glue::{Held, Numbering, Original};
    use std::hint::black_box;

    /// The original takes the bytes that its table has fetched; these copies are made before.
    pub fn read(nodes: &[&[u8]], row: &mut Row) {
        for pass in 0..PASSES {
            let owned: Vec<Vec<u8>> = nodes.iter().map(|node| node.to_vec()).collect();
            let (read, time) = timed(|| owned.into_iter().map(Held::read).collect::<Result<Vec<_>, _>>());
            row.offer(ORIGINAL, time / nodes.len() as f64);
            let read = read.expect("good nodes");
            assert!(pass > 0 || read.iter().zip(nodes).all(|(held, node)| held.count() == count(node)));
        }
    }

    fn count(node: &[u8]) -> usize {
        crate::twin::codec::read(node).expect("a good node").count
    }

    /// Nodes into the stand-in's table, over what they were.
    pub fn write(nodes: &[&[u8]], row: &mut Row) {
        let tree = Original::new(Numbering::AsTheyCome).expect("an empty tree is made");
        let held: Result<Vec<Held>, _> = nodes.iter().map(|node| Held::read(node.to_vec())).collect();
        let held = held.expect("good nodes");
        for _ in 0..PASSES {
            let copies = held.clone();
            let write = || copies.into_iter().zip(1..).try_for_each(|(node, number)| tree.write(number, node));
            let (answer, time) = timed(write);
            black_box(answer).expect("they are written");
            row.offer(ORIGINAL, time / nodes.len() as f64);
        }
        assert!(nodes.iter().zip(1..).all(|(node, number)| tree.node(number).as_deref() == Some(*node)));
    }
}

/// The original isn't there.
#[cfg(not(feature = "original"))]
mod original {
    use crate::rows::Row;

    pub fn read(_nodes: &[&[u8]], _row: &mut Row) {}

    pub fn write(_nodes: &[&[u8]], _row: &mut Row) {}
}
