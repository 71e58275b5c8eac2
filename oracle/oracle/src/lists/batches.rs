//! Histories of sorted batches: after each batch the whole store, the entries,
//! lookups, and a cursor walk.

use super::frame::{self, Frame};
use super::List;
use crate::history::{drawn, Drawn, Keys, Phase, Style};
use crate::model::cursor::{Cursor, Place as CursorPlace};
use crate::model::store::{Answer, Store, NO_ROOM};
use crate::random::Random;
use crate::runs::feed;
use crate::shape::{Place, Shape};
use crate::walk::{retrace, Step, Walk};
use original::btree::glue::{Change, Error, Numbering, Original, Pair};
use std::collections::BTreeMap;
use std::ops::RangeInclusive;
use Phase::{Absent, Append, Back, Front, Grow, Inner, Mixed, Shrink};

/// The seed of the stored list.
pub const SEED: u64 = 0x5EED_00C1;

/// No block is longer.
/// The name of the list.
pub const FILE: &str = "batches.bin";

const LIMIT: usize = 32_768;

/// No history has more slots.
const MOST_SLOTS: u32 = 72;

/// What is asked after each batch.
const LOOKUPS: usize = 16;
const STEPS: usize = 40;

/// Phases of a history, with its keys and how many records a batch has.
struct Plan {
    keys: Keys,
    records: RangeInclusive<usize>,
    phases: &'static [Phase],
}

const fn plan(keys: Keys, records: RangeInclusive<usize>, phases: &'static [Phase]) -> Plan {
    Plan {
        keys,
        records,
        phases,
    }
}

/// Each plan is run a few times, on other records.
const TIMES: usize = 5;

#[rustfmt::skip]
const PLANS: [Plan; 14] = [
    plan(Keys::Bytes, 6..=12, &[Mixed, Mixed, Grow, Shrink, Mixed, Absent, Front, Append]),
    plan(Keys::Bytes, 20..=40, &[Append, Inner, Grow, Inner, Shrink, Back]),
    plan(Keys::Bytes, 30..=60, &[Grow, Grow, Inner, Inner, Shrink, Front, Front]),
    plan(Keys::Bytes, 35..=70, &[Append, Append, Front, Grow, Back, Back]),
    plan(Keys::Short, 15..=30, &[Grow, Grow, Mixed, Shrink, Absent, Mixed, Inner]),
    plan(Keys::Short, 30..=60, &[Grow, Shrink, Grow, Shrink, Grow, Shrink]),
    plan(Keys::Short, 40..=80, &[Mixed, Mixed, Inner, Mixed, Shrink]),
    plan(Keys::Words, 25..=50, &[Grow, Grow, Grow, Inner, Shrink, Shrink, Back]),
    plan(Keys::Words, 12..=25, &[Grow, Absent, Grow, Mixed, Shrink, Front, Grow]),
    plan(Keys::Numbers, 45..=90, &[Append, Append, Append, Inner, Back, Front]),
    plan(Keys::Numbers, 66..=70, &[Append, Append, Append, Append, Inner, Shrink, Back, Front]),
    plan(Keys::Numbers, 30..=60, &[Append, Mixed, Grow, Inner, Shrink, Absent]),
    plan(Keys::Long, 6..=12, &[Grow, Mixed, Grow, Shrink]),
    plan(Keys::Long, 2..=5, &[Grow, Grow, Mixed, Inner, Shrink]),
];

pub fn list() -> List {
    let mut random = Random::new(SEED);
    let mut blocks = Vec::new();
    for plan in PLANS.iter().flat_map(|plan| (0..TIMES).map(move |_| plan)) {
        add_history(&mut blocks, plan, &mut random);
    }
    let histories = PLANS.len() * TIMES;
    let batches = blocks.len() - histories;
    frame::list(FILE, &blocks, batches, LIMIT)
}

/// A block that opens the history, then one for each batch.
fn add_history(blocks: &mut Vec<Frame>, plan: &Plan, random: &mut Random) {
    let style = Style {
        keys: plan.keys,
        fewest: *plan.records.start(),
        most: *plan.records.end(),
        largest_value: if random.percent(50) { u64::MAX } else { 255 },
    };
    let Drawn { batches, most_used } = drawn(style, plan.phases, random);
    let slots = slots(most_used, random);
    let answered = answered(slots, &batches, style.keys, random);
    let mut opening = Frame::default();
    opening.short(slots as usize);
    opening.short(answered.len());
    blocks.push(opening);
    blocks.extend(answered);
}

/// Just enough, a few more, or too few.
fn slots(most_used: u32, random: &mut Random) -> u32 {
    let few = random.below(4) as u32;
    let slots = if random.percent(30) {
        most_used.saturating_sub(1 + few).max(1)
    } else {
        most_used + few
    };
    assert!(slots <= MOST_SLOTS);
    slots
}

/// Runs the batches on the original, up to the first that finds no room.
fn answered(slots: u32, batches: &[Vec<Change>], keys: Keys, random: &mut Random) -> Vec<Frame> {
    let tree = Original::new(Numbering::Chain(slots)).expect("an empty tree opens");
    let mut ours = Store::format(slots);
    let mut cursor = Cursor(CursorPlace::Start);
    let mut walk = Walk::new(&tree);
    let mut blocks = Vec::new();
    for (at, records) in batches.iter().enumerate() {
        let answer = ours.batch(records);
        let found = feed(&tree, records);
        if answer.number == NO_ROOM {
            assert_eq!(found, Err(Error::NoRoom));
            let left = replayed(slots, &batches[..at], &records[..answer.applied]);
            let mut walk = Walk::new(&left);
            let mut steps = vec![walk.start()];
            steps.extend((1..STEPS).map(|_| walk.any_step(keys, random)));
            blocks.push(batch_block(&left, records, &answer, &steps, keys, random));
            check(&left, &ours, &steps, &mut cursor);
            return blocks;
        }
        found.expect("01 says there is room");
        walk.batch_ran();
        let steps: Vec<_> = (0..STEPS).map(|_| walk.any_step(keys, random)).collect();
        blocks.push(batch_block(&tree, records, &answer, &steps, keys, random));
        check(&tree, &ours, &steps, &mut cursor);
    }
    blocks
}

/// The tree after some batches and the first records of another: what a batch
/// that finds no room has to leave.
fn replayed(slots: u32, batches: &[Vec<Change>], applied: &[Change]) -> Original {
    let tree = Original::new(Numbering::Chain(slots)).expect("an empty tree opens");
    for batch in batches {
        feed(&tree, batch).expect("there was room before");
    }
    feed(&tree, applied).expect("there was room before");
    tree
}

/// Our reading of 01 has to agree.
fn check(tree: &Original, ours: &Store, steps: &[Step], cursor: &mut Cursor) {
    steps.iter().for_each(|step| retrace(step, cursor, ours));
    assert_eq!(Shape::of(tree), ours.shape());
    assert_eq!(tree.free_chain(), ours.free_chain());
}

fn batch_block(
    tree: &Original,
    records: &[Change],
    answer: &Answer,
    steps: &[Step],
    keys: Keys,
    random: &mut Random,
) -> Frame {
    let mut frame = Frame::default();
    let entries = Shape::of(tree).entries();
    frame.part(&record_bytes(records));
    frame.byte(answer.number.into());
    frame.short(answer.applied);
    add_store(&mut frame, tree);
    add_entries(&mut frame, &entries);
    add_lookups(&mut frame, tree, &entries, keys, random);
    add_walk(&mut frame, steps);
    frame
}

/// "Records: kind (1 set, 2 dereference), key length u16, value u64 (0 for
/// kind 2), key."
fn record_bytes(records: &[Change]) -> Vec<u8> {
    let mut frame = Frame::default();
    for record in records {
        let (kind, value) = match record {
            Change::Set(_, value) => (1, *value),
            Change::Dereference(_) => (2, 0),
        };
        frame.byte(kind);
        frame.short(record.key().len());
        frame.long(value);
        frame.bytes(record.key());
    }
    frame.0
}

/// The header as 01 lays it out, then what each slot holds.
fn add_store(frame: &mut Frame, tree: &Original) {
    let (root, depth) = tree.header().expect("the tree is good");
    let free = tree.free_chain();
    let mut nodes = BTreeMap::new();
    add_nodes(&mut nodes, &Shape::of(tree).root.expect("a batch was run"));
    let count = nodes.len() + free.len();

    frame.long(root);
    frame.word(depth as usize);
    frame.word(count);
    frame.word(free.first().map_or(0, slot_number));
    frame.word(0);
    for slot in 1..=count as u64 {
        match nodes.get(&slot) {
            Some(bytes) => frame.part(bytes),
            None => {
                frame.short(0);
                frame.short(next_free(&free, slot));
            }
        }
    }
}

fn slot_number(slot: &u64) -> usize {
    usize::try_from(*slot).expect("a slot number is small")
}

/// The slot behind this one in the free chain, 0 for none.
fn next_free(free: &[u64], slot: u64) -> usize {
    let at = free.iter().position(|other| *other == slot);
    let next = at.expect("a slot is reached or free") + 1;
    free.get(next).map_or(0, slot_number)
}

fn add_nodes(nodes: &mut BTreeMap<u64, Vec<u8>>, place: &Place) {
    nodes.insert(place.slot, place.bytes.clone());
    place
        .children
        .iter()
        .for_each(|child| add_nodes(nodes, child));
}

fn add_pair(frame: &mut Frame, (key, value): &Pair) {
    frame.part(key);
    frame.long(*value);
}

fn add_entries(frame: &mut Frame, entries: &[Pair]) {
    frame.short(entries.len());
    entries.iter().for_each(|entry| add_pair(frame, entry));
}

/// Half of the keys are there, if any is.
fn add_lookups(
    frame: &mut Frame,
    tree: &Original,
    entries: &[Pair],
    keys: Keys,
    random: &mut Random,
) {
    frame.short(LOOKUPS);
    for at in 0..LOOKUPS {
        let key = if at % 2 == 0 || entries.is_empty() {
            keys.draw(false, random)
        } else {
            random.pick(entries).0.clone()
        };
        let found = tree.get(&key).expect("the tree is good");
        add_pair(frame, &(key, found.unwrap_or(0)));
    }
}

fn add_walk(frame: &mut Frame, steps: &[Step]) {
    frame.short(steps.len());
    for step in steps {
        match step {
            Step::Start => frame.byte(0),
            Step::End => frame.byte(1),
            Step::Seek(key) => {
                frame.byte(2);
                frame.part(key);
            }
            Step::Forward(found) => add_answer(frame, 3, found),
            Step::Backward(found) => add_answer(frame, 4, found),
        }
    }
}

fn add_answer(frame: &mut Frame, step: usize, found: &Option<Pair>) {
    frame.byte(step);
    frame.byte(usize::from(found.is_some()));
    if let Some(pair) = found {
        add_pair(frame, pair);
    }
}
