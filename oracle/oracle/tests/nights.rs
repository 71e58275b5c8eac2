//! 01's known nights on the original, as far as it has them, and on our
//! reading of 01.

use oracle::model::codec;
use oracle::model::store::{Answer, Store};
use oracle::runs::feed;
use oracle::shape::{Place, Shape};
use original::btree::glue::{write_node, Change, NodeParts, Numbering, Original};

fn sets(keys: impl IntoIterator<Item = u8>) -> Vec<Change> {
    let set = |key: u8| Change::Set(vec![key], key.into());
    keys.into_iter().map(set).collect()
}

fn removal(key: u8) -> Vec<Change> {
    vec![Change::Dereference(vec![key])]
}

/// The tree and the free chain after the batches, on both.
fn after(slots: u32, batches: &[Vec<Change>]) -> (Shape, Vec<u64>) {
    let theirs = Original::new(Numbering::Chain(slots)).expect("an empty tree opens");
    let mut ours = Store::format(slots);
    for batch in batches {
        feed(&theirs, batch).expect("there is room");
        assert_eq!(ours.batch(batch).number, 0);
    }
    let shape = Shape::of(&theirs);
    assert_eq!(shape, ours.shape());
    assert_eq!(theirs.free_chain(), ours.free_chain());
    (shape, ours.free_chain())
}

fn keys(place: &Place) -> Vec<u8> {
    place.separators.iter().map(|(key, _)| key[0]).collect()
}

/// Slot and keys of the root, then of its children.
fn layout(shape: &Shape) -> Vec<(u64, Vec<u8>)> {
    let root = shape.root.as_ref().expect("a batch was run");
    let below = root.children.iter().map(|child| (child.slot, keys(child)));
    std::iter::once((root.slot, keys(root)))
        .chain(below)
        .collect()
}

fn written(key: Vec<u8>, value: u64) -> Vec<u8> {
    let separators = vec![(key, value)];
    let ours = codec::write(&[], &separators).expect("it can be written");
    let node = NodeParts {
        children: [0; 9],
        separators,
    };
    assert_eq!(write_node(&node), Ok(ours.clone()));
    ours
}

#[test]
fn empty_leaf_and_single_keys() {
    let (empty, _) = after(25, &[vec![]]);
    assert_eq!(empty.root.expect("the first batch writes it").bytes, [0; 8]);
    assert_eq!(written(vec![0x61, 0x62], 5).len(), 27);
    for (key, node) in [(254, 279), (255, 284), (288, 317)] {
        assert_eq!(written(vec![1; key], 5).len(), node);
    }
    assert_eq!(codec::write(&[], &[(vec![1; 289], 5)]), Err(4));
}

#[test]
fn one_to_nine() {
    let split = vec![(3, vec![5]), (1, vec![1, 2, 3, 4]), (2, vec![6, 7, 8, 9])];
    let (shape, _) = after(25, &[sets(1..=9)]);
    assert_eq!(layout(&shape), split);
    let (shape, _) = after(25, &[sets([1, 2, 3, 4, 6, 7, 8, 9]), sets([5])]);
    assert_eq!(layout(&shape), split);
}

#[test]
fn one_to_nine_in_two_slots() {
    let mut store = Store::format(2);
    let answer = store.batch(&sets(1..=9));
    let (number, applied) = (9, 8);
    assert_eq!(answer, Answer { number, applied });
}

#[test]
fn removals_from_one_to_nine() {
    let (shape, free) = after(4, &[sets(1..=9), removal(9)]);
    assert_eq!(layout(&shape), [(1, (1..=8).collect())]);
    assert_eq!((shape.depth, free), (0, vec![3, 2, 4]));
    let (shape, _) = after(4, &[sets(1..=9), removal(5)]);
    assert_eq!(layout(&shape), [(1, vec![1, 2, 3, 4, 6, 7, 8, 9])]);
}

#[test]
fn borrowing_from_the_right() {
    let (shape, _) = after(25, &[sets(1..=10), removal(1)]);
    let expected = [(3, vec![6]), (1, vec![2, 3, 4, 5]), (2, vec![7, 8, 9, 10])];
    assert_eq!(layout(&shape), expected);
}

#[test]
fn set_and_removed_in_one_batch() {
    let batch = [sets([1]), removal(1)].concat();
    let (shape, _) = after(25, &[batch]);
    assert_eq!(layout(&shape), [(1, vec![])]);
    assert_eq!(codec::read(&[]).expect_err("no byte").number, 11);
}
