//! Damaged stores: wherever 01's walk gives an answer, the original gives the
//! same one. (Where 01 says 8 the original may say anything, and need not end.)
//! Where our walk says 8 for a sloppy node alone, the original reads on, as if
//! the node were in standard form (D11).

use oracle::history::{batch, Keys, Phase, Style};
use oracle::model::bytes::{Bytes, From, Way};
use oracle::model::codec;
use oracle::model::cursor::Place;
use oracle::nodes::{any_node, damaged, Damage, Lengths};
use oracle::random::Random;
use oracle::report::report;
use oracle::runs::feed;
use oracle::shape::Shape;
use original::btree::glue::{read_node, Numbering, Original, Pair, Result};
use std::collections::BTreeMap;

const SLOTS: u64 = 60;
const KEYS: [Keys; 3] = [Keys::Bytes, Keys::Short, Keys::Words];

/// What became of a question.
#[derive(Clone, Copy)]
enum Outcome {
    /// 01 answers, and the original answers the same.
    Same,
    /// 01 answers 8.
    Refused,
    /// Ours is 8 for sloppy nodes alone (D11): with these in standard form 01
    /// answers, and the original answers that (D4 and D10 left out).
    Sloppy,
    /// One of the known differences.
    Known,
}

#[derive(Default)]
struct Counts {
    stores: usize,
    same: usize,
    refused: usize,
    sloppy: usize,
    known: usize,
}

impl Counts {
    fn add(&mut self, outcome: Outcome) {
        match outcome {
            Outcome::Same => self.same += 1,
            Outcome::Refused => self.refused += 1,
            Outcome::Sloppy => self.sloppy += 1,
            Outcome::Known => self.known += 1,
        }
    }
}

#[test]
fn damaged_stores_are_walked_the_same() {
    let mut random = Random::new(301);
    let mut counts = Counts::default();
    for _ in 0..1500 {
        let keys = *random.pick(&KEYS);
        let good = good_store(keys, &mut random);
        for _ in 0..40 {
            let store = damage(&good, &mut random);
            walk(&store, keys, &mut random, &mut counts);
        }
    }
    assert!(counts.refused > counts.stores && counts.same > counts.stores);
    assert!(counts.sloppy > counts.stores / 10);
    report(
        "damaged_stores_are_walked_the_same",
        &[
            ("stores", counts.stores),
            ("answers the same", counts.same),
            ("answers 8", counts.refused),
            ("answers 8 for sloppy nodes alone", counts.sloppy),
            ("left out for D4 and D10", counts.known),
        ],
    );
}

fn good_store(keys: Keys, random: &mut Random) -> Bytes {
    let tree = Original::new(Numbering::Chain(SLOTS as u32)).expect("an empty tree opens");
    let style = Style {
        keys,
        fewest: 5,
        most: 70,
        largest_value: 1000,
    };
    for phase in [Phase::Grow, Phase::Grow, Phase::Mixed] {
        let records = batch(style, phase, &Shape::of(&tree), random);
        feed(&tree, &records).expect("there is room");
    }
    let (root, depth) = tree.header().expect("the tree is good");
    let nodes = (1..=SLOTS).filter_map(|slot| Some((slot, tree.node(slot)?)));
    Bytes {
        root,
        depth,
        count: SLOTS,
        nodes: nodes.collect(),
    }
}

/// One to three kinds of damage.
fn damage(good: &Bytes, random: &mut Random) -> Bytes {
    let mut store = Bytes {
        nodes: good.nodes.clone(),
        ..*good
    };
    for _ in 0..random.between(1, 3) {
        damage_once(&mut store, random);
    }
    store
}

fn damage_once(store: &mut Bytes, random: &mut Random) {
    let has_bytes = store.nodes.iter().filter(|(_, bytes)| !bytes.is_empty());
    let used: Vec<u64> = has_bytes.map(|(slot, _)| *slot).collect();
    if used.is_empty() {
        return;
    }
    let slot = *random.pick(&used);
    let other = *random.pick(&used);
    let bytes = store.nodes.get_mut(&slot).expect("a used slot");
    match random.below(20) {
        0 => store.depth = random.below(10) as u32,
        1 => store.root = random.below(SLOTS as usize + 3) as u64,
        2 => drop(store.nodes.remove(&slot)),
        3 => bytes.truncate(random.below(bytes.len())),
        4..=6 => swap(&mut store.nodes, slot, other),
        7 => *bytes = any_bytes(random),
        8 => bytes.extend([0; 9]),
        9 => *bytes = with_a_long_size(bytes, random),
        _ => {
            let at = random.below(bytes.len());
            let any = random.any() as u8;
            bytes[at] = *random.pick(&[0, 1, 2, 97, 98, other as u8, any]);
        }
    }
}

fn swap(nodes: &mut BTreeMap<u64, Vec<u8>>, slot: u64, other: u64) {
    let bytes = nodes[&slot].clone();
    let bytes = nodes.insert(other, bytes).expect("a used slot");
    nodes.insert(slot, bytes);
}

/// The same node, if it can be read, with one length written as a long one.
fn with_a_long_size(bytes: &[u8], random: &mut Random) -> Vec<u8> {
    match read_node(bytes) {
        Ok(node) => damaged(&node, Damage::LongSize, random),
        Err(_) => bytes.to_vec(),
    }
}

fn any_bytes(random: &mut Random) -> Vec<u8> {
    let node = any_node(8, Lengths::Edges, random);
    let damage = *random.pick(&Damage::ALL);
    damaged(&node, damage, random)
}

/// The store with its sloppy nodes in standard form.
fn tidied(store: &Bytes) -> Bytes {
    let nodes = store.nodes.iter();
    let nodes = nodes.map(|(slot, bytes)| (*slot, tidy(bytes)));
    Bytes {
        nodes: nodes.collect(),
        ..*store
    }
}

/// A node's standard form, if it can be read and its length is a node's.
fn tidy(bytes: &[u8]) -> Vec<u8> {
    const LONGEST: usize = 2480;
    match codec::read(bytes) {
        Ok(node) if bytes.len() <= LONGEST => {
            let separators = node.separators.into_iter();
            let pairs: Vec<Pair> = separators
                .map(|s| (bytes[s.key].to_vec(), s.value))
                .collect();
            codec::write(&node.children, &pairs).expect("what was read can be written")
        }
        _ => bytes.to_vec(),
    }
}

fn walk(store: &Bytes, keys: Keys, random: &mut Random, counts: &mut Counts) {
    let theirs = Original::new(Numbering::AsTheyCome).expect("an empty tree opens");
    theirs.put_header(store.root, store.depth);
    for (slot, bytes) in &store.nodes {
        theirs.put_node(*slot, bytes);
    }
    let tidied = tidied(store);
    let mut ask = |asked: &dyn Fn(&Bytes) -> Outcome| {
        counts.add(match (asked(store), asked(&tidied)) {
            (Outcome::Refused, Outcome::Refused) => Outcome::Refused,
            (Outcome::Refused, _) => Outcome::Sloppy,
            (outcome, _) => outcome,
        });
    };
    for _ in 0..8 {
        let key = keys.draw(false, random);
        ask(&|store| look_up(store, &theirs, &key));
        ask(&|store| step(store, &theirs, &From::Seeked(&key)));
    }
    ask(&|store| step(store, &theirs, &From::Start));
    ask(&|store| step(store, &theirs, &From::End));
    counts.stores += 1;
}

fn look_up(store: &Bytes, theirs: &Original, key: &[u8]) -> Outcome {
    match store.lookup(key) {
        Err(_) => Outcome::Refused,
        Ok(found) => {
            assert_eq!(theirs.get(key), Ok(found));
            Outcome::Same
        }
    }
}

fn step(store: &Bytes, theirs: &Original, from: &From) -> Outcome {
    let has_depth_only = store.root == 0 && store.depth > 0;
    let (place, way) = match from {
        From::Start => (Place::Start, Way::Forward),
        From::Seeked(key) => (Place::Seeked(key.to_vec()), Way::Forward),
        From::End => (Place::End, Way::Backward),
    };
    let stepped = store.step(from);
    let found = stepped.as_ref().map(|(found, _)| found.clone());
    assert_eq!(store.walk(&place, way), found.map_err(|number| *number));
    match stepped {
        Err(_) => Outcome::Refused,
        // D4.
        Ok((_, true)) => Outcome::Known,
        Ok(_) if has_depth_only && !matches!(from, From::Start) => {
            // D10.
            assert!(their_step(theirs, from).is_err());
            Outcome::Known
        }
        Ok((found, false)) => {
            assert_eq!(their_step(theirs, from), Ok(found));
            Outcome::Same
        }
    }
}

fn their_step(theirs: &Original, from: &From) -> Result<Option<Pair>> {
    let mut cursor = theirs.cursor()?;
    match from {
        From::Start => (),
        From::Seeked(key) => cursor.seek(key)?,
        From::End => {
            cursor.seek_to_last()?;
            return cursor.backward();
        }
    }
    cursor.forward()
}
