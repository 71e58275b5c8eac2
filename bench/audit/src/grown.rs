//! Stores grown from a shape.

use crate::layout::*;

/// A node by its separators, or by its children, whose separators are one
/// fewer.
#[derive(Clone)]
pub enum Shape {
    Leaf(usize),
    Inner(Vec<Shape>),
}

impl Shape {
    fn depth(&self) -> u32 {
        match self {
            Shape::Leaf(_) => 0,
            Shape::Inner(children) => 1 + children[0].depth(),
        }
    }
}

/// How a store is filled: the slots for the nodes, each before those below it
/// and these in order of their keys, and the keys by their place.
pub struct Filling {
    pub count: u32,
    pub slots: Vec<u64>,
    pub key: fn(u64) -> Vec<u8>,
}

/// The store; slots that no node takes are free, in order.
pub fn store(shape: &Shape, filling: Filling) -> Vec<u8> {
    let mut growing = Growing {
        buffer: blank(filling.count),
        filling,
        nodes: 0,
        keys: 0,
    };
    let root = growing.grow(shape);
    let mut buffer = growing.buffer;
    let mut is_free = vec![true; growing.filling.count as usize + 1];
    for slot in &growing.filling.slots[..growing.nodes] {
        is_free[*slot as usize] = false;
    }
    let free = (1..=growing.filling.count.into()).filter(|slot| is_free[*slot as usize]);
    put_chain(&mut buffer, &free.collect::<Vec<u64>>());
    put_u64(&mut buffer, 0, root);
    put_u32(&mut buffer, 8, shape.depth());
    buffer
}

struct Growing {
    buffer: Vec<u8>,
    filling: Filling,
    nodes: usize,
    keys: u64,
}

impl Growing {
    fn grow(&mut self, shape: &Shape) -> u64 {
        let slot = self.filling.slots[self.nodes];
        self.nodes += 1;
        let bytes = match shape {
            Shape::Leaf(n) => {
                let pairs: Vec<Pair> = (0..*n).map(|_| self.pair()).collect();
                node(&[], &pairs)
            }
            Shape::Inner(shapes) => {
                let (first, others) = shapes.split_first().expect("it has a child");
                let mut children = vec![self.grow(first)];
                let mut pairs = Vec::new();
                for shape in others {
                    pairs.push(self.pair());
                    children.push(self.grow(shape));
                }
                node(&children, &pairs)
            }
        };
        put_node(&mut self.buffer, slot, &bytes);
        slot
    }

    fn pair(&mut self) -> Pair {
        self.keys += 1;
        ((self.filling.key)(self.keys), self.keys)
    }
}
