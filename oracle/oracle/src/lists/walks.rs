//! Stores, good ones and damaged ones, with lookups and cursor walks on each.

use super::damages;
use super::frame::{self, Frame};
use super::List;
use crate::history::{drawn, Drawn, Keys, Phase, Style};
use crate::model::buffer::{self, start_of, HEADER, SLOT};
use crate::model::bytes::{Bytes, Way};
use crate::model::codec::{KEY_TOO_LONG, LONGEST_KEY};
use crate::model::cursor::Place;
use crate::random::Random;
use crate::runs::feed;
use crate::shape::{self, Shape};
use crate::walk::{Step, Walk};
use original::btree::glue::{Numbering, Original, Pair};
use std::ops::RangeInclusive;
use Phase::{Append, Grow, Inner, Mixed};

/// The seed of the stored list.
pub const SEED: u64 = 0x5EED_00D1;

/// The name of the list.
pub const FILE: &str = "walks.bin";

/// No block and no buffer is longer.
const LIMIT: usize = 65_536;

/// What stands behind the key of a cursor that is put somewhere.
pub const MARK: u8 = 0xA5;

/// A good store: its keys, how many records a batch has, its batches, and how
/// much is asked.
struct Plan {
    keys: Keys,
    records: RangeInclusive<usize>,
    phases: &'static [Phase],
    asked: usize,
}

const fn plan(
    keys: Keys,
    records: RangeInclusive<usize>,
    phases: &'static [Phase],
    asked: usize,
) -> Plan {
    Plan {
        keys,
        records,
        phases,
        asked,
    }
}

#[rustfmt::skip]
const PLANS: [Plan; 8] = [
    plan(Keys::Bytes, 0..=0, &[Grow], 20),
    plan(Keys::Bytes, 5..=8, &[Grow], 80),
    plan(Keys::Bytes, 20..=30, &[Append, Inner, Grow], 200),
    plan(Keys::Short, 20..=30, &[Grow, Mixed], 200),
    plan(Keys::Words, 40..=45, &[Grow, Grow, Inner], 200),
    plan(Keys::Numbers, 85..=85, &[Append], 250),
    plan(Keys::Numbers, 50..=55, &[Append, Mixed, Grow], 250),
    plan(Keys::Long, 10..=14, &[Grow, Mixed], 30),
];

pub fn list() -> List {
    let mut random = Random::new(SEED);
    let mut blocks = vec![without_root(&mut random)];
    blocks.extend(PLANS.iter().map(|plan| good(plan, &mut random)));
    blocks.extend(damages::blocks());
    let cases = blocks.len();
    frame::list(FILE, &blocks, cases, LIMIT)
}

/// A formatted store.
fn without_root(random: &mut Random) -> Frame {
    let shape = Shape {
        depth: 0,
        root: None,
    };
    let mut asking = Asking::of(laid_out(&shape, &[1, 2, 3]));
    for _ in 0..40 {
        asking.any(Keys::Short, &[], random);
    }
    asking.block()
}

/// A tree of the original's: asked of both, then of our reading alone, which
/// goes where the original parts from 01 too.
fn good(plan: &Plan, random: &mut Random) -> Frame {
    let tree = tree(plan, random);
    let shape = Shape::of(&tree);
    let entries = shape.entries();
    let mut asking = Asking::of(laid_out(&shape, &tree.free_chain()));
    asking.all_entries(&entries);
    for at in 0..plan.asked {
        let key = if at % 2 == 0 || entries.is_empty() {
            plan.keys.draw(false, random)
        } else {
            random.pick(&entries).0.clone()
        };
        let found = tree.get(&key).expect("the tree is good");
        assert_eq!(asking.lookup(&key), Ok(found));
    }
    let mut walk = Walk::new(&tree);
    asking.follow(&walk.start());
    for _ in 0..plan.asked {
        asking.follow(&walk.any_step(plan.keys, random));
    }
    for _ in 0..plan.asked {
        asking.any(plan.keys, &entries, random);
    }
    asking.block()
}

fn tree(plan: &Plan, random: &mut Random) -> Original {
    let style = Style {
        keys: plan.keys,
        fewest: *plan.records.start(),
        most: *plan.records.end(),
        largest_value: if random.percent(50) { u64::MAX } else { 255 },
    };
    let Drawn { batches, most_used } = drawn(style, plan.phases, random);
    let tree = Original::new(Numbering::Chain(most_used + 1)).expect("an empty tree opens");
    for records in &batches {
        feed(&tree, records).expect("there is room");
    }
    tree
}

/// The bytes of a store as 01 lays it out.
pub fn laid_out(shape: &Shape, free: &[u64]) -> Vec<u8> {
    let count = shape.node_count() + free.len();
    let mut buffer = vec![0; HEADER + SLOT * count];
    let root = shape.root.as_ref().map_or(0, |root| root.slot);
    put(&mut buffer, 0, &root.to_le_bytes());
    put(&mut buffer, 8, &shape.depth.to_le_bytes());
    put(&mut buffer, 12, &(count as u32).to_le_bytes());
    let first = free.first().map_or(0, |slot| *slot as u32);
    put(&mut buffer, 16, &first.to_le_bytes());
    for (at, slot) in free.iter().enumerate() {
        let next = free.get(at + 1).map_or(0, |slot| *slot as u32);
        put(&mut buffer, start_of(*slot) + 4, &next.to_le_bytes());
    }
    if let Some(root) = &shape.root {
        lay_out_nodes(&mut buffer, root);
    }
    buffer
}

fn lay_out_nodes(buffer: &mut [u8], place: &shape::Place) {
    put_node(buffer, place.slot, &place.bytes);
    let children = place.children.iter();
    children.for_each(|child| lay_out_nodes(buffer, child));
}

pub fn put_node(buffer: &mut [u8], slot: u64, bytes: &[u8]) {
    let start = start_of(slot);
    put(buffer, start, &(bytes.len() as u32).to_le_bytes());
    put(buffer, start + 4, bytes);
}

pub fn put(buffer: &mut [u8], at: usize, bytes: &[u8]) {
    buffer[at..at + bytes.len()].copy_from_slice(bytes);
}

/// Where a cursor is put, as the list has it.
#[derive(Clone, Copy)]
pub enum Kind {
    Start,
    End,
    At,
    Seeked,
}

/// A buffer and the questions to it, answered by our reading of 01.
pub struct Asking {
    buffer: Vec<u8>,
    store: Result<Bytes, u8>,
    place: Place,
    asked: usize,
    frame: Frame,
}

/// A question's answer: an entry, a value or none, or the number.
type Answer<T> = Result<Option<T>, u8>;

impl Asking {
    pub fn of(buffer: Vec<u8>) -> Self {
        let store = buffer::store(&buffer);
        Asking {
            buffer,
            store,
            place: Place::Start,
            asked: 0,
            frame: Frame::default(),
        }
    }

    fn add(&mut self, question: usize, number: u8, value: u64, key: &[u8]) {
        self.frame.byte(question);
        self.frame.byte(number.into());
        self.frame.long(value);
        self.frame.part(key);
        self.asked += 1;
    }

    pub fn lookup(&mut self, key: &[u8]) -> Answer<u64> {
        let store = self.store.as_ref().map_err(|number| *number);
        let found = store.and_then(|store| store.lookup(key));
        let number = found.err().unwrap_or(0);
        let value = found.unwrap_or(None).unwrap_or(0);
        self.add(0, number, value, key);
        found
    }

    /// The key in front of the array, marks behind it; the length need not be
    /// the key's.
    pub fn put(&mut self, kind: Kind, length: u64, key: &[u8]) {
        let mut array = key.to_vec();
        array.resize(LONGEST_KEY + 1, MARK);
        array.truncate(length.min(LONGEST_KEY as u64 + 1) as usize);
        self.place = match kind {
            Kind::Start => Place::Start,
            Kind::End => Place::End,
            Kind::At => Place::At(array),
            Kind::Seeked => Place::Seeked(array),
        };
        self.add(1, kind as u8, length, key);
    }

    /// A key that is too long leaves the cursor where it is.
    pub fn seek(&mut self, key: &[u8]) {
        if key.len() > LONGEST_KEY {
            return self.add(2, KEY_TOO_LONG, 0, key);
        }
        self.place = Place::Seeked(key.to_vec());
        self.add(2, 0, 0, key);
    }

    pub fn step(&mut self, way: Way) -> Answer<Pair> {
        let store = self.store.as_ref().map_err(|number| *number);
        let found = store.and_then(|store| store.walk(&self.place, way));
        let (question, ends) = match way {
            Way::Forward => (3, Place::End),
            Way::Backward => (4, Place::Start),
        };
        match &found {
            Err(number) => self.add(question, *number, 0, &[]),
            Ok(None) => {
                self.place = ends;
                self.add(question, 0, 0, &[]);
            }
            Ok(Some((key, value))) => {
                self.place = Place::At(key.clone());
                self.add(question, 0, *value, key);
            }
        }
        found
    }

    /// All entries forward, and backward again, one step further each time.
    fn all_entries(&mut self, entries: &[Pair]) {
        self.put(Kind::Start, 0, &[]);
        for entry in entries {
            assert_eq!(self.step(Way::Forward).as_ref(), Ok(&Some(entry.clone())));
        }
        assert_eq!(self.step(Way::Forward), Ok(None));
        assert_eq!(self.step(Way::Forward), Ok(None));
        for entry in entries.iter().rev() {
            assert_eq!(self.step(Way::Backward).as_ref(), Ok(&Some(entry.clone())));
        }
        assert_eq!(self.step(Way::Backward), Ok(None));
        assert_eq!(self.step(Way::Backward), Ok(None));
    }

    /// A step that the original took; the answer has to be the same.
    fn follow(&mut self, step: &Step) {
        match step {
            Step::Start => self.put(Kind::Start, 0, &[]),
            Step::End => self.put(Kind::End, 0, &[]),
            Step::Seek(key) => self.seek(key),
            Step::Forward(found) => assert_eq!(self.step(Way::Forward), Ok(found.clone())),
            Step::Backward(found) => assert_eq!(self.step(Way::Backward), Ok(found.clone())),
        }
    }

    /// A step of any kind, from any place.
    fn any(&mut self, keys: Keys, entries: &[Pair], random: &mut Random) {
        let key = if entries.is_empty() || random.percent(50) {
            keys.draw(false, random)
        } else {
            random.pick(entries).0.clone()
        };
        let length = key.len() as u64;
        match random.below(100) {
            0..=4 => self.put(Kind::Start, 0, &key),
            5..=9 => self.put(Kind::End, 0, &key),
            10..=14 => self.put(Kind::At, length, &key),
            15..=19 => self.put(Kind::Seeked, length, &key),
            20..=24 => self.seek(&key),
            25..=29 => _ = self.lookup(&key),
            30..=64 => _ = self.step(Way::Backward),
            _ => _ = self.step(Way::Forward),
        }
    }

    /// The buffer, by what isn't zero in it, and the questions.
    pub fn block(self) -> Frame {
        let patches = patches(&self.buffer);
        let mut block = Frame::default();
        block.word(self.buffer.len());
        block.short(patches.len());
        for (at, bytes) in patches {
            block.word(at);
            block.part(bytes);
        }
        block.short(self.asked);
        block.bytes(&self.frame.0);
        assert!(self.buffer.len() <= LIMIT);
        block
    }
}

/// The parts that aren't zero, cut where sixteen zeros are.
fn patches(buffer: &[u8]) -> Vec<(usize, &[u8])> {
    let mut patches: Vec<(usize, usize)> = Vec::new();
    for at in (0..buffer.len()).filter(|at| buffer[*at] != 0) {
        match patches.last_mut() {
            Some((_, end)) if at < *end + 16 => *end = at + 1,
            _ => patches.push((at, at + 1)),
        }
    }
    let parts = patches.iter();
    parts
        .map(|(start, end)| (*start, &buffer[*start..*end]))
        .collect()
}
