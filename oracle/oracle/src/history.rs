//! Batches that make a tree grow, shrink and turn over.

use crate::random::Random;
use crate::runs::{feed, runs};
use crate::shape::Shape;
use original::btree::glue::{Change, Numbering, Original};

/// What a batch is for.
#[derive(Clone, Copy, Debug)]
pub enum Phase {
    /// New keys above all others.
    Append,
    /// Sets of keys here and there, with some runs.
    Grow,
    /// Dereferences of keys that are there, with some runs.
    Shrink,
    /// Dereferences from the smallest on.
    Front,
    /// Dereferences of the largest.
    Back,
    /// Dereferences of keys in inner nodes.
    Inner,
    /// Dereferences of keys that are mostly not there.
    Absent,
    /// Sets and dereferences, many runs.
    Mixed,
}

use Phase::{Absent, Append, Back, Front, Grow, Inner, Mixed, Shrink};

impl Phase {
    pub const ALL: [Phase; 8] = [Append, Grow, Shrink, Front, Back, Inner, Absent, Mixed];

    /// How many records of 100 are sets.
    fn sets(self) -> usize {
        match self {
            Append => 100,
            Grow => 92,
            Mixed => 50,
            Absent | Shrink | Front | Back | Inner => 0,
        }
    }
}

/// Which keys a history has.
#[derive(Clone, Copy, Debug)]
pub enum Keys {
    /// One byte, 1 to 255.
    Bytes,
    /// Two bytes, counting.
    Numbers,
    /// 0 to 3 bytes of few kinds: many prefixes, and the empty key.
    Short,
    /// 1 to 6 bytes.
    Words,
    /// Long ones, among them 254, 255, 256, 287 and 288 bytes.
    Long,
}

const LONG_LENGTHS: [usize; 8] = [0, 1, 200, 254, 255, 256, 287, 288];

impl Keys {
    pub const ALL: [Keys; 5] = [
        Keys::Bytes,
        Keys::Numbers,
        Keys::Short,
        Keys::Words,
        Keys::Long,
    ];

    /// Any key; a narrow choice gives more equal ones.
    pub fn draw(self, narrow: bool, random: &mut Random) -> Vec<u8> {
        match self {
            Keys::Bytes => vec![random.between(1, if narrow { 40 } else { 120 }) as u8],
            Keys::Numbers => number(random.between(1, if narrow { 60 } else { 2000 })),
            Keys::Short => letters(random.between(0, 3), &[0, 1, 97, 98, 255], random),
            Keys::Words => letters(random.between(1, 6), b"abcd", random),
            Keys::Long => long(narrow, random),
        }
    }

    /// New keys above the last one, as far as these keys can count.
    fn after(self, last: Option<&[u8]>, amount: usize, random: &mut Random) -> Vec<Vec<u8>> {
        let first = last.map_or(0, count_of) + 1;
        match self {
            Keys::Bytes => (first..256).take(amount).map(|n| vec![n as u8]).collect(),
            Keys::Numbers => (first..65_536).take(amount).map(number).collect(),
            _ => (0..amount).map(|_| self.draw(false, random)).collect(),
        }
    }
}

fn number(number: usize) -> Vec<u8> {
    (number as u16).to_be_bytes().to_vec()
}

fn count_of(key: &[u8]) -> usize {
    key.iter().fold(0, |count, &byte| {
        count.wrapping_mul(256).wrapping_add(usize::from(byte))
    })
}

fn letters(length: usize, choices: &[u8], random: &mut Random) -> Vec<u8> {
    (0..length).map(|_| *random.pick(choices)).collect()
}

/// A long key: equal to the others but for one byte somewhere.
fn long(narrow: bool, random: &mut Random) -> Vec<u8> {
    let mut key = vec![7; *random.pick(&LONG_LENGTHS)];
    if !key.is_empty() {
        let at = random.below(key.len());
        key[at] = random.between(5, if narrow { 8 } else { 60 }) as u8;
    }
    key
}

/// How a batch is drawn.
#[derive(Clone, Copy)]
pub struct Style {
    pub keys: Keys,
    pub fewest: usize,
    pub most: usize,
    pub largest_value: u64,
}

/// Batches drawn one after the other, and the most slots that they ever need.
pub struct Drawn {
    pub batches: Vec<Vec<Change>>,
    pub most_used: u32,
}

/// A batch for each phase, drawn for the tree that those before it leave.
pub fn drawn(style: Style, phases: &[Phase], random: &mut Random) -> Drawn {
    let tree = Original::new(Numbering::AsTheyCome).expect("an empty tree opens");
    let mut most_used = 0;
    let mut batches = Vec::new();
    for &phase in phases {
        let batch = batch(style, phase, &Shape::of(&tree), random);
        // Within a batch more may be in use than at its end.
        for run in runs(&batch) {
            feed(&tree, run).expect("numbers don't run out");
            most_used = most_used.max(tree.node_count() as u32);
        }
        batches.push(batch);
    }
    Drawn { batches, most_used }
}

/// A batch for the tree as it stands.
pub fn batch(style: Style, phase: Phase, shape: &Shape, random: &mut Random) -> Vec<Change> {
    let mut keys = keys(style, phase, shape, random);
    keys.truncate(style.most);
    keys.sort();
    keys.into_iter()
        .map(|key| record(style, phase, key, random))
        .collect()
}

fn keys(style: Style, phase: Phase, shape: &Shape, random: &mut Random) -> Vec<Vec<u8>> {
    let present: Vec<Vec<u8>> = shape.entries().into_iter().map(|(key, _)| key).collect();
    let amount = random.between(style.fewest, style.most);
    let draws = |narrow, random: &mut Random| {
        (0..amount)
            .map(|_| style.keys.draw(narrow, random))
            .collect()
    };
    match phase {
        Append => {
            let last = present.last().map(|key| &key[..]);
            style.keys.after(last, amount, random)
        }
        Grow | Absent => draws(false, random),
        Mixed => draws(true, random),
        Front => present.into_iter().take(amount).collect(),
        Back => present.into_iter().rev().take(amount).collect(),
        Inner => shape.inner_keys(),
        Shrink if present.is_empty() => Vec::new(),
        Shrink => (0..amount).map(|_| random.pick(&present).clone()).collect(),
    }
}

fn record(style: Style, phase: Phase, key: Vec<u8>, random: &mut Random) -> Change {
    if random.percent(phase.sets()) {
        Change::Set(key, random.any() % style.largest_value + 1)
    } else {
        Change::Dereference(key)
    }
}
