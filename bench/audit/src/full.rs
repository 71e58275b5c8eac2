//! Full stores: every slot of 65,535 holds a node of a tree of depth 5.

use crate::grown::{self, Filling, Shape};
use crate::random::Random;

pub const COUNT: u32 = 65_535;

/// Which keys, and where the nodes stand.
pub struct Kind {
    pub name: &'static str,
    pub key: fn(u64) -> Vec<u8>,
    pub shuffled: bool,
}

pub const KINDS: [Kind; 4] = [
    Kind {
        name: "keys of 288 bytes, alike but for the last 3",
        key: |place| [&[b'k'; 285], &place.to_be_bytes()[5..]].concat(),
        shuffled: false,
    },
    Kind {
        name: "keys of 288 bytes, unlike in the first 3",
        key: |place| [&place.to_be_bytes()[5..], &[b'k'; 285]].concat(),
        shuffled: false,
    },
    Kind {
        name: "the same, nodes in slots at random",
        key: |place| [&place.to_be_bytes()[5..], &[b'k'; 285]].concat(),
        shuffled: true,
    },
    Kind {
        name: "keys of 3 bytes",
        key: |place| place.to_be_bytes()[5..].to_vec(),
        shuffled: false,
    },
];

impl Kind {
    pub fn store(&self) -> Vec<u8> {
        let mut slots: Vec<u64> = (1..=COUNT.into()).collect();
        if self.shuffled {
            let mut random = Random(1);
            for i in (1..slots.len()).rev() {
                slots.swap(i, random.below(i + 1));
            }
        }
        let filling = Filling {
            count: COUNT,
            slots,
            key: self.key,
        };
        grown::store(&shape(&levels()), filling)
    }
}

/// How many nodes each level has, the leaves first: as many leaves as there
/// can be, so that most nodes are full.
fn levels() -> Vec<usize> {
    for leaves in (1..COUNT as usize).rev() {
        for more in 0..3 {
            let mut levels = vec![leaves, leaves.div_ceil(9) + more];
            while levels[levels.len() - 1] > 1 {
                levels.push(levels[levels.len() - 1].div_ceil(9));
            }
            if levels.iter().sum::<usize>() == COUNT as usize {
                return levels;
            }
        }
    }
    unreachable!("one leaf more or fewer changes the sum by a few")
}

/// Leaves of 8, and above them each level shared out evenly.
fn shape(levels: &[usize]) -> Shape {
    let mut nodes = vec![Shape::Leaf(8); levels[0]];
    for above in &levels[1..] {
        let mut below = nodes.into_iter();
        let all = below.len();
        nodes = (0..*above)
            .map(|i| all * (i + 1) / above - all * i / above)
            .map(|children| Shape::Inner(below.by_ref().take(children).collect()))
            .collect();
    }
    nodes.remove(0)
}
