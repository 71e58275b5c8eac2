//! Small histories for reading and for theorems: single-byte keys, answers in
//! plain numbers.

use crate::history::{drawn, Drawn, Keys, Phase, Style};
use crate::random::Random;
use crate::runs::feed;
use crate::shape::{Place, Shape};
use original::btree::glue::{Change, Numbering, Original};
use std::fmt::Write;
use Phase::{Absent, Append, Back, Front, Grow, Inner, Mixed, Shrink};

/// The stored text.
pub const FILE: &str = concat!(env!("CARGO_MANIFEST_DIR"), "/../histories.txt");

/// The seed of the stored text.
pub const SEED: u64 = 0x5EED_0001;

const FEWEST_SLOTS: u32 = 6;
const MOST_SLOTS: u32 = 30;

const STYLE: Style = Style {
    keys: Keys::Bytes,
    fewest: 20,
    most: 30,
    largest_value: 255,
};

/// One list of phases for each history.
const PLANS: [&[Phase]; 24] = [
    &[Append],
    &[Absent, Append],
    &[Append, Back],
    &[Append, Front],
    &[Append, Inner],
    &[Append, Shrink],
    &[Grow],
    &[Grow, Absent],
    &[Grow, Grow],
    &[Grow, Shrink],
    &[Grow, Mixed, Mixed],
    &[Grow, Grow, Inner],
    &[Append, Append, Append],
    &[Append, Append, Inner],
    &[Append, Append, Front],
    &[Append, Append, Back, Back],
    &[Append, Append, Append, Inner],
    &[Append, Append, Shrink, Shrink],
    &[Grow, Grow, Grow, Grow],
    &[Grow, Grow, Grow, Shrink],
    &[Grow, Grow, Grow, Inner],
    &[Append, Grow, Inner, Mixed],
    &[Append, Append, Inner, Inner],
    &[Mixed, Append, Front, Absent],
];

/// A history and what the original leaves at its end.
pub struct Small {
    pub slots: u32,
    pub batches: Vec<Vec<Change>>,
    pub end: Shape,
    pub free: Vec<u64>,
}

/// All small histories.
pub fn histories() -> Vec<Small> {
    let mut random = Random::new(SEED);
    PLANS
        .iter()
        .map(|plan| history(plan, &mut random))
        .collect()
}

fn history(plan: &[Phase], random: &mut Random) -> Small {
    let Drawn { batches, most_used } = drawn(STYLE, plan, random);
    let slots = most_used + random.below(4) as u32;
    answered(slots.clamp(FEWEST_SLOTS, MOST_SLOTS), batches)
}

/// Runs the history on the original with this many slots.
pub fn answered(slots: u32, batches: Vec<Vec<Change>>) -> Small {
    let tree = Original::new(Numbering::Chain(slots)).expect("an empty tree opens");
    for batch in &batches {
        feed(&tree, batch).expect("there are enough slots");
    }
    Small {
        slots,
        batches,
        end: Shape::of(&tree),
        free: tree.free_chain(),
    }
}

const HEAD: &str = "\
# Small histories and what the original leaves at their end.
#
# A history has a store of so many slots (`slots`), formatted, and then each
# batch run in order. Every batch is answered 0; none runs out of slots.
#   batch  three numbers for each record: kind (1 set, 2 dereference), the one
#          byte of the key, the value (0 for kind 2). Keys are 1 to 255 and never
#          fall; values are 1 to 255.
# After the last batch:
#   depth  the header's depth.
#   tree   the root's node. A node is written as
#            its slot, its first child's node (nothing at depth 0),
#            then for each separator: key, value, the child's node behind it
#            (nothing at depth 0),
#            then 0.
#          No key is 0, so the 0 ends the node. In a function of (slot, first,
#          list of (separator, child)), the depth falling:
#            node 0     (slot, _, seps)     = [slot] ++ concat [key, value] ++ [0]
#            node (d+1) (slot, first, seps) = [slot] ++ node d first
#                          ++ concat ([key, value] ++ node d child) ++ [0]
#          The empty root of slot s is: s 0.
#   free   the free chain from its first slot on (nothing if no slot is free).
#
# Made by the original Rust, fed one empty batch and then one run of equal keys
# at a time, node addresses given out as the slot chain does:
#   cargo run --release --bin histories
";

/// The text of all small histories.
pub fn text() -> String {
    let mut text = String::from(HEAD);
    let _ = writeln!(text, "# Seed {SEED:#x}.");
    for (at, small) in histories().iter().enumerate() {
        add_history(&mut text, at + 1, small);
    }
    text
}

fn add_history(text: &mut String, number: usize, small: &Small) {
    let _ = writeln!(text, "\nhistory {number}\nslots {}", small.slots);
    for batch in &small.batches {
        add_line(text, "batch", batch.iter().flat_map(record_numbers));
    }
    let _ = writeln!(text, "depth {}", small.end.depth);
    let root = small
        .end
        .root
        .as_ref()
        .expect("there is a root after a batch");
    add_line(text, "tree", node_numbers(root).into_iter());
    add_line(text, "free", small.free.iter().copied());
}

fn add_line(text: &mut String, name: &str, numbers: impl Iterator<Item = u64>) {
    text.push_str(name);
    for number in numbers {
        let _ = write!(text, " {number}");
    }
    text.push('\n');
}

fn record_numbers(record: &Change) -> [u64; 3] {
    match record {
        Change::Set(key, value) => [1, u64::from(key[0]), *value],
        Change::Dereference(key) => [2, u64::from(key[0]), 0],
    }
}

fn node_numbers(place: &Place) -> Vec<u64> {
    let mut numbers = vec![place.slot];
    numbers.extend(place.children.first().into_iter().flat_map(node_numbers));
    for (at, (key, value)) in place.separators.iter().enumerate() {
        numbers.extend([u64::from(key[0]), *value]);
        numbers.extend(
            place
                .children
                .get(at + 1)
                .into_iter()
                .flat_map(node_numbers),
        );
    }
    numbers.push(0);
    numbers
}
