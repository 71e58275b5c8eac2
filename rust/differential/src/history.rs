//! Histories: batches run by the linked functions and by the original, fed as 01 tells (oracle/README.md).

use cikolaro::raw::{self, Lent};
use oracle::history::{drawn, Keys, Phase, Style};
use oracle::lists::walks::laid_out;
use oracle::model::store::{Store as Model, NO_ROOM};
use oracle::random::Random;
use oracle::runs::{feed, runs};
use oracle::shape::{Place, Shape};
use oracle::walk::{Step, Walk};
use original::btree::glue::{Change, Error, Numbering, Original};

use crate::records::encoded;
use crate::shrink::shrunk;
use crate::{same, Compared, Counts};

const STEPS: usize = 25;

#[derive(Clone)]
struct History {
    count: u32,
    keys: Keys,
    batches: Vec<Vec<Change>>,
    /// For lookups, steps and what stands in lent words before a call.
    seed: u64,
}

pub fn case(random: &mut Random, counts: &mut Counts) -> Compared {
    let history = draw(random);
    counts.histories += 1;
    check(&history, counts).map_err(|told| smallest(history, told))
}

fn draw(random: &mut Random) -> History {
    let keys = *random.pick(&Keys::ALL);
    let most = *random.pick(&[1, 3, 12, 60, 60, 60, 300]);
    let style = Style { keys, fewest: 0, most, largest_value: u64::MAX };
    let phases: Vec<Phase> =
        (0..random.between(1, 12))
            .map(|_| {
                if random.percent(45) {
                    *random.pick(&[Phase::Grow, Phase::Append])
                } else {
                    *random.pick(&Phase::ALL)
                }
            })
            .collect();
    let drawn = drawn(style, &phases, random);
    // One history of four meets "no room", if it needs a slot at all.
    let least = drawn.most_used.max(1) as usize;
    let count = if random.percent(25) { random.between(1, least) } else { random.between(least, least + 70) };
    History { count: count as u32, keys, batches: drawn.batches, seed: random.any() }
}

/// The same history with batches and records taken out, as long as it disagrees.
fn smallest(history: History, told: String) -> String {
    let with = |batches: &[Vec<Change>]| History { batches: batches.to_vec(), ..history.clone() };
    let fails = |h: &History| check(h, &mut Counts::default()).is_err();
    let mut batches = shrunk(history.batches.clone(), &|b: &[Vec<Change>]| fails(&with(b)));
    for i in 0..batches.len() {
        let others = batches.clone();
        batches[i] = shrunk(others[i].clone(), &|records: &[Change]| {
            let mut batches = others.clone();
            batches[i] = records.to_vec();
            fails(&with(&batches))
        });
    }
    let last = check(&with(&batches), &mut Counts::default()).err().unwrap_or(told);
    format!("{last}\n  slots {}, seed of the questions {}, batches {batches:?}", history.count, history.seed)
}

/// The linked side: a store, and marks with something in them.
struct Linked {
    store: Vec<u8>,
    marks: Vec<u64>,
}

impl Linked {
    fn new(count: u32, random: &mut Random) -> Linked {
        let mut store = random.bytes(cikolaro::store_size(count));
        assert_eq!(raw::format(&mut store, count), 0);
        let words = (count as usize).div_ceil(64) + random.below(3);
        Linked { store, marks: vec![0; words] }
    }

    /// Number and records applied, the marks being zero afterwards.
    fn batch(&mut self, records: &[Change], random: &mut Random) -> Result<(u32, usize), String> {
        self.marks.iter_mut().for_each(|word| *word = random.any());
        let answer = raw::batch(&mut self.store, &mut self.marks, &encoded(records));
        same("marks after a batch", self.marks.iter().any(|word| *word != 0), false)?;
        Ok(answer)
    }
}

fn check(history: &History, counts: &mut Counts) -> Compared {
    let mut random = Random::new(history.seed);
    let theirs = Original::new(Numbering::Chain(history.count)).expect("an empty tree opens");
    let mut model = Model::format(history.count);
    let mut linked = Linked::new(history.count, &mut random);
    same("bytes after formatting", &linked.store, &laid_out(&model.shape(), &model.free_chain()))?;
    let mut walk = Walk::new(&theirs);
    let mut cursor = Lent { kind: 0, length: 0, key: [0; 288] };
    for records in &history.batches {
        let answer = linked.batch(records, &mut random)?;
        let told = model.batch(records);
        same("number and applied", answer, (u32::from(told.number), told.applied))?;
        same_bytes(&linked.store, &laid_out(&model.shape(), &model.free_chain()))?;
        counts.batches += 1;
        counts.records += records.len();
        if told.number == NO_ROOM {
            counts.no_room += 1;
            return same("applied before the original has no room", answer.1, applied_by(&theirs, records));
        }
        feed(&theirs, records).map_err(|e| format!("the original: {e:?}"))?;
        let shape = Shape::of(&theirs);
        same_bytes(&linked.store, &laid_out(&shape, &theirs.free_chain()))?;
        audited(&mut linked, &shape, &mut random)?;
        entries(&linked.store, &shape, counts)?;
        look_up(&linked.store, &theirs, history.keys, &shape, &mut random, counts)?;
        walk.batch_ran();
        for _ in 0..STEPS {
            counts.steps += 1;
            retrace(&walk.any_step(history.keys, &mut random), &mut cursor, &linked.store)?;
        }
    }
    Ok(())
}

/// Node bytes by place, slots, free chain and zeros at once.
fn same_bytes(linked: &[u8], told: &[u8]) -> Compared {
    let differ = linked.iter().zip(told).position(|(a, b)| a != b);
    same("length of the store and the first byte that differs", (linked.len(), differ), (told.len(), None))
}

fn applied_by(theirs: &Original, records: &[Change]) -> usize {
    let mut applied = 0;
    for run in runs(records) {
        match feed(theirs, run) {
            Ok(()) => applied += run.len(),
            Err(Error::NoRoom) => return applied,
            Err(other) => panic!("{other:?}"),
        }
    }
    applied
}

fn audited(linked: &mut Linked, shape: &Shape, random: &mut Random) -> Compared {
    linked.marks.iter_mut().for_each(|word| *word = random.any());
    let answer = raw::audit(&linked.store, &mut linked.marks);
    let mut told = vec![0; linked.marks.len()];
    if let Some(root) = &shape.root {
        mark(root, &mut told);
    }
    same("audit", answer, (0, shape.node_count()))?;
    same("marks of the audit", &linked.marks, &told)
}

fn mark(place: &Place, marks: &mut [u64]) {
    marks[(place.slot as usize - 1) / 64] |= 1 << ((place.slot - 1) % 64);
    place.children.iter().for_each(|child| mark(child, marks));
}

/// All entries, forward from Start and backward from End.
fn entries(store: &[u8], shape: &Shape, counts: &mut Counts) -> Compared {
    let told = shape.entries();
    let mut forward = Lent { kind: 0, length: 0, key: [0; 288] };
    let mut backward = Lent { kind: 1, ..forward };
    for pair in told.iter().map(Some).chain([None]) {
        retrace(&Step::Forward(pair.cloned()), &mut forward, store)?;
    }
    for pair in told.iter().rev().map(Some).chain([None]) {
        retrace(&Step::Backward(pair.cloned()), &mut backward, store)?;
    }
    counts.steps += 2 * (told.len() + 1);
    Ok(())
}

fn look_up(
    store: &[u8],
    theirs: &Original,
    keys: Keys,
    shape: &Shape,
    random: &mut Random,
    counts: &mut Counts,
) -> Compared {
    let present = shape.entries();
    let mut wanted: Vec<Vec<u8>> = (0..10).map(|_| keys.draw(false, random)).collect();
    if !present.is_empty() {
        wanted.extend((0..10).map(|_| random.pick(&present).0.clone()));
    }
    counts.lookups += wanted.len();
    for key in wanted {
        let answer = raw::lookup(store, &key);
        same("lookup", (answer.number, answer.value), (0, theirs.get(&key).expect("the tree is good")))?;
    }
    Ok(())
}

/// The cursor with this kind and key, zeros behind the key.
pub fn lent(kind: u32, key: &[u8]) -> Lent {
    let mut lent = Lent { kind, length: key.len(), key: [0; 288] };
    lent.key[..key.len()].copy_from_slice(key);
    lent
}

fn retrace(step: &Step, cursor: &mut Lent, store: &[u8]) -> Compared {
    let (answer, told, none) = match step {
        Step::Start => {
            *cursor = lent(0, &[]);
            return Ok(());
        }
        Step::End => {
            *cursor = lent(1, &[]);
            return Ok(());
        }
        Step::Seek(key) => {
            same("seek", raw::seek(key, cursor), 0)?;
            return same("the cursor after a seek", *cursor, lent(3, key));
        }
        Step::Forward(found) => (raw::forward(store, cursor), found, 1),
        Step::Backward(found) => (raw::backward(store, cursor), found, 0),
    };
    same("step", (answer.number, answer.value), (0, told.as_ref().map(|(_, value)| *value)))?;
    let place = told.as_ref().map_or_else(|| lent(none, &[]), |(key, _)| lent(2, key));
    same("the cursor after a step", *cursor, place)
}
