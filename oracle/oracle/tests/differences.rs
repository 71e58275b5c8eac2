//! Where the original differs from 01, each on its smallest input: what the
//! original really does, and what 01 asks for. DIFFERENCES.md tells of each.

use oracle::model::bytes::{Bytes, From, BAD};
use oracle::model::codec;
use oracle::model::cursor::{Cursor, Place};
use oracle::model::store::{Node, Store};
use oracle::readings::original_answer;
use oracle::runs::feed;
use oracle::shape::Shape;
use original::btree::glue::{Change, Error, NodeParts, Numbering, Original, Pair};

fn set(key: &[u8], value: u64) -> Change {
    Change::Set(key.to_vec(), value)
}

fn pair(key: &[u8], value: u64) -> Pair {
    (key.to_vec(), value)
}

/// The original with these changes in it, and our store with the same.
fn both(changes: &[Change]) -> (Original, Store) {
    let theirs = Original::new(Numbering::Chain(25)).expect("an empty tree opens");
    let mut ours = Store::format(25);
    feed(&theirs, changes).expect("there is room");
    assert_eq!(ours.batch(changes).number, 0);
    (theirs, ours)
}

/// A store that need not be good: node bytes in slots 1, 2, ...
fn store(root: u64, depth: u32, nodes: &[(&[u64], &[Pair])]) -> (Original, Bytes) {
    store_of(root, depth, nodes.iter().map(written).collect())
}

fn written((children, separators): &(&[u64], &[Pair])) -> Vec<u8> {
    codec::write(children, separators).expect("it can be written")
}

/// The same with bytes that the writer need not make.
fn store_of(root: u64, depth: u32, nodes: Vec<Vec<u8>>) -> (Original, Bytes) {
    let theirs = Original::new(Numbering::AsTheyCome).expect("an empty tree opens");
    theirs.put_header(root, depth);
    let mut ours = Bytes {
        root,
        depth,
        count: nodes.len() as u64,
        nodes: Default::default(),
    };
    for (slot, bytes) in (1..).zip(nodes) {
        theirs.put_node(slot, &bytes);
        ours.nodes.insert(slot, bytes);
    }
    (theirs, ours)
}

#[test]
fn d1_a_new_iterator_goes_backward_from_the_end() {
    let (theirs, ours) = both(&[set(&[1], 5)]);
    let mut iterator = theirs.cursor().unwrap();
    assert_eq!(iterator.backward(), Ok(Some(pair(&[1], 5))));
    assert_eq!(Cursor(Place::Start).backward(&ours), None);
}

#[test]
fn d2_going_to_the_end_keeps_an_old_none() {
    let (theirs, ours) = both(&[set(&[1], 5)]);
    let mut iterator = theirs.cursor().unwrap();
    iterator.seek(&[0]).unwrap();
    assert_eq!(iterator.backward(), Ok(None));
    iterator.seek_to_last().unwrap();
    assert_eq!(iterator.backward(), Ok(None));

    let mut cursor = Cursor(Place::Seeked(vec![0]));
    assert_eq!(cursor.backward(&ours), None);
    cursor.0 = Place::End;
    assert_eq!(cursor.backward(&ours), Some(pair(&[1], 5)));
}

/// The same with a batch in between: the answer kept is older than the tree, and
/// is kept on.
#[test]
fn d2_going_to_the_end_keeps_a_none_from_before_a_batch() {
    let (theirs, _) = both(&[]);
    let mut iterator = theirs.cursor().unwrap();
    assert_eq!(iterator.backward(), Ok(None));
    theirs.batch(&[set(&[1], 5)]).unwrap();
    iterator.seek_to_last().unwrap();
    assert_eq!(iterator.backward(), Ok(None));
    assert_eq!(iterator.backward(), Ok(None));
}

#[test]
fn d3_start_is_sought_as_the_empty_key_after_a_batch() {
    let theirs = Original::new(Numbering::Chain(25)).unwrap();
    let mut ours = Store::format(25);
    let mut iterator = theirs.cursor().unwrap();
    theirs.batch(&[set(&[], 5)]).unwrap();
    ours.batch(&[set(&[], 5)]);
    assert_eq!(iterator.backward(), Ok(Some(pair(&[], 5))));
    assert_eq!(Cursor(Place::Start).backward(&ours), None);
}

#[test]
fn d4_a_seek_stops_at_a_match_in_an_inner_node() {
    let leaf = |slot, key| Node {
        slot,
        separators: vec![pair(key, slot.into())],
        children: vec![],
    };
    let root = Node {
        slot: 1,
        separators: vec![pair(b"m", 1)],
        children: vec![leaf(2, b"z"), leaf(3, b"x")],
    };
    let nodes: [(&[u64], &[Pair]); 3] = [
        (&[2, 3], &[pair(b"m", 1)]),
        (&[], &[pair(b"z", 2)]),
        (&[], &[pair(b"x", 3)]),
    ];
    let (theirs, _) = store(1, 1, &nodes);
    let mut iterator = theirs.cursor().unwrap();
    iterator.seek(b"m").unwrap();
    assert_eq!(iterator.forward(), Ok(Some(pair(b"m", 1))));

    let ours = Store::holding(root, 1);
    let found = Cursor(Place::Seeked(b"m".to_vec())).forward(&ours);
    assert_eq!(found, Some(pair(b"z", 2)));
}

#[test]
fn d5_a_missing_child_is_taken_for_absence() {
    let nodes: [(&[u64], &[Pair]); 2] = [(&[0, 2], &[pair(b"m", 1)]), (&[], &[])];
    let (theirs, ours) = store(1, 1, &nodes);
    assert_eq!(theirs.get(b"a"), Ok(None));
    assert_eq!(ours.lookup(b"a"), Err(BAD));

    // A step from Start ends at once; only a seek complains.
    let mut iterator = theirs.cursor().unwrap();
    assert_eq!(iterator.forward(), Ok(None));
    assert!(matches!(iterator.seek(b"a"), Err(Error::Corruption(_))));
}

#[test]
fn d6_a_lookup_goes_down_below_depth_0() {
    let nodes: [(&[u64], &[Pair]); 3] = [
        (&[2, 3], &[pair(b"m", 1)]),
        (&[], &[pair(b"a", 2)]),
        (&[], &[pair(b"z", 3)]),
    ];
    let (theirs, ours) = store(1, 0, &nodes);
    assert_eq!(theirs.get(b"a"), Ok(Some(2)));
    assert_eq!(ours.lookup(b"a"), Err(BAD));
}

#[test]
fn d7_there_is_no_longest_key() {
    let key = vec![1; 289];
    let separators = vec![pair(&key, 5)];
    let mut bytes = vec![0; 8];
    codec::add_separator(&mut bytes, &key, 5);
    bytes.extend([0; 8]);
    let children = [0; 9];
    let read = NodeParts {
        children,
        separators,
    };
    assert_eq!(original_answer(&bytes), Ok(read));
    assert_eq!(codec::read(&bytes).expect_err("too long").number, 4);

    let (theirs, _) = both(&[]);
    assert_eq!(theirs.get(&key), Ok(None));
    theirs.batch(&[set(&key, 5)]).unwrap();
    assert_eq!(theirs.get(&key), Ok(Some(5)));
    let (_, ours) = store(1, 0, &[(&[], &[])]);
    assert_eq!(ours.lookup(&key), Err(4));
}

/// 01 names this one among the slips.
#[test]
fn d8_a_change_is_lost_where_a_child_is_missing() {
    let nodes: [(&[u64], &[Pair]); 2] = [(&[0, 2], &[pair(b"m", 1)]), (&[], &[])];
    let (theirs, _) = store(1, 1, &nodes);
    assert_eq!(theirs.batch(&[set(b"a", 5)]), Ok(()));
    assert_eq!(theirs.get(b"a"), Ok(None));
}

#[test]
fn d9_the_first_batch_numbers_its_root_last() {
    let sets: Vec<Change> = (1..=9).map(|key| set(&[key], 1)).collect();
    let slots = |shape: Shape| {
        let root = shape.root.expect("a batch was run");
        [root.children[0].slot, root.children[1].slot, root.slot]
    };
    let theirs = Original::new(Numbering::Chain(25)).unwrap();
    theirs.batch(&sets).unwrap();
    assert_eq!(slots(Shape::of(&theirs)), [2, 1, 3]);
    let (theirs, ours) = both(&sets);
    assert_eq!(slots(ours.shape()), [1, 2, 3]);
    assert_eq!(slots(Shape::of(&theirs)), [1, 2, 3]);
}

#[test]
fn d10_a_seek_without_root_complains_of_a_depth() {
    let (theirs, ours) = store(0, 1, &[]);
    let mut iterator = theirs.cursor().unwrap();
    assert_eq!(iterator.forward(), Ok(None));
    assert!(matches!(iterator.seek(b"a"), Err(Error::Corruption(_))));
    let seek_to_last = iterator.seek_to_last();
    assert!(matches!(seek_to_last, Err(Error::Corruption(_))));
    let steps = [From::Start, From::Seeked(b"a"), From::End];
    for from in steps {
        assert_eq!(ours.step(&from), Ok((None, false)));
    }
}

/// A sloppy leaf that holds `z`, on the right of a root with `m`; its standard
/// form; and the number that the strict reading has for it. The original reads
/// on: it finds what stands in the leaf and steps on it. Ours answers 8 where a
/// walk reads the leaf, and as the original where it doesn't. The lenient
/// reading of the leaf's bytes reads what the original reads.
fn check_sloppy(leaf: &[u8], standard: &[u8], number: u8) {
    let root = written(&(&[2, 3], &[pair(b"m", 1)]));
    let left = written(&(&[], &[pair(b"a", 2)]));
    let (theirs, ours) = store_of(1, 1, vec![root, left, leaf.to_vec()]);
    let z = original_answer(leaf).expect("it is readable").separators[0].clone();
    assert_eq!(z.0, b"z");
    assert_eq!(theirs.get(b"z"), Ok(Some(z.1)));
    assert_eq!(ours.lookup(b"z"), Err(BAD));
    for (key, value) in [(b"a", 2), (b"m", 1)] {
        assert_eq!(theirs.get(key), Ok(Some(value)));
        assert_eq!(ours.lookup(key), Ok(Some(value)));
    }

    let mut iterator = theirs.cursor().unwrap();
    iterator.seek(b"z").unwrap();
    assert_eq!(iterator.forward(), Ok(Some(z)));
    assert_eq!(ours.step(&From::Seeked(b"z")), Err(BAD));
    let first = Some(pair(b"a", 2));
    assert_eq!(theirs.cursor().unwrap().forward(), Ok(first.clone()));
    assert_eq!(ours.step(&From::Start), Ok((first, false)));

    let refused = codec::read_strict(leaf).expect_err("it is sloppy");
    assert_eq!(refused.number, number);
    assert!(leaf != standard);
    assert_eq!(original_answer(leaf), original_answer(standard));
    let read = codec::read(leaf).expect("the lenient reading reads it");
    assert_eq!(read.children, codec::read(standard).unwrap().children);
    let key = &leaf[read.separators[0].key.clone()];
    assert_eq!((key, read.separators[0].value), (&b"z"[..], 3));
    assert!(codec::read_strict(standard).is_ok());
}

#[test]
fn d11_a_long_size_for_a_short_key_is_read() {
    let standard = written(&(&[], &[pair(b"z", 3)]));
    let mut sloppy = standard.clone();
    sloppy.splice(16..17, [255, 1, 0, 0, 0]);
    check_sloppy(&sloppy, &standard, codec::LONG_SIZE_SMALL);
}

#[test]
fn d11_a_value_of_0_ends_a_node() {
    let standard = written(&(&[], &[pair(b"z", 3)]));
    let sloppy = [&standard[..], &[0; 9]].concat();
    check_sloppy(&sloppy, &standard, codec::SEPARATOR_ZERO);
}

#[test]
fn d11_bytes_behind_the_ninth_child_are_ignored() {
    let full: Vec<Pair> = (b'z'..).take(8).map(|key| pair(&[key], 3)).collect();
    let standard = written(&(&[], &full));
    let sloppy = [&standard[..], &[0]].concat();
    check_sloppy(&sloppy, &standard, codec::BYTES_BEHIND);
}

/// Limits that 01 adds. The original sorts what isn't sorted, takes any number
/// of records, and looks at the depth only where it goes down.
#[test]
fn limits_the_original_does_not_have() {
    let (theirs, _) = both(&[]);
    theirs.batch(&[set(&[2], 5), set(&[1], 6)]).unwrap();
    let entries = [pair(&[1], 6), pair(&[2], 5)];
    assert_eq!(Shape::of(&theirs).entries(), entries);

    let many = vec![set(&[1], 7); 65_536];
    assert_eq!(theirs.batch(&many), Ok(()));
    assert_eq!(theirs.get(&[1]), Ok(Some(7)));

    let (theirs, ours) = store(0, 8, &[]);
    assert_eq!(theirs.get(&[1]), Ok(None));
    assert_eq!(ours.lookup(&[1]), Err(BAD));
}
