//! 01's known nights through the linked functions. "Keys are single bytes 1, 2, ..., from a fresh store."

use cikolaro::view::{tree, Node};
use cikolaro::{Batch, Refusal, Store};

fn sets(keys: impl IntoIterator<Item = u8>) -> Batch {
    let mut batch = Batch::new();
    for key in keys {
        batch.set([key], u64::from(key));
    }
    batch
}

fn nine(count: u32) -> Store<Vec<u8>> {
    let mut store = Store::new(count).unwrap();
    assert_eq!(store.apply(&sets(1..=9)), Ok(9));
    store
}

fn keys(node: &Node) -> Vec<u8> {
    node.separators.iter().map(|(key, _)| key[0]).collect()
}

fn node_length(store: &Store<Vec<u8>>, slot: usize) -> u32 {
    let at = 24 + 2560 * (slot - 1);
    u32::from_le_bytes(store.bytes()[at..at + 4].try_into().unwrap())
}

#[test]
fn leaves_have_the_told_lengths() {
    let mut store = Store::new(1).unwrap();
    assert_eq!(store.apply(&Batch::new()), Ok(0));
    assert_eq!(node_length(&store, 1), 8);
    for (key, length) in [(vec![0x61, 0x62], 27), (vec![7; 254], 279), (vec![7; 255], 284), (vec![7; 288], 317)] {
        let mut store = Store::new(1).unwrap();
        assert_eq!(store.apply(Batch::new().set(key, 5)), Ok(1));
        assert_eq!(node_length(&store, 1), length);
    }
    let error = Store::new(1).unwrap().apply(Batch::new().set([7; 289], 5)).unwrap_err();
    assert_eq!((error.refusal, error.applied), (Refusal::LongKey, 0));
}

#[test]
fn nine_keys_split() {
    let mut other = Store::new(4).unwrap();
    other.apply(&sets([1, 2, 3, 4, 6, 7, 8, 9])).unwrap();
    other.apply(&sets([5])).unwrap();
    for store in [nine(4), other] {
        let root = tree(&store).unwrap().root.unwrap();
        assert_eq!(
            (keys(&root), keys(&root.children[0]), keys(&root.children[1])),
            (vec![5], vec![1, 2, 3, 4], vec![6, 7, 8, 9])
        );
        assert_eq!((root.children[0].slot, root.slot, root.children[1].slot), (1, 3, 2));
    }
}

#[test]
fn two_slots_have_room_for_eight() {
    let mut store = Store::new(2).unwrap();
    let error = store.apply(&sets(1..=9)).unwrap_err();
    assert_eq!((error.refusal, error.applied), (Refusal::NoRoom, 8));
}

#[test]
fn removals_merge_and_borrow() {
    let mut store = nine(4);
    store.apply(Batch::new().remove([9])).unwrap();
    let seen = tree(&store).unwrap();
    assert_eq!((keys(&seen.root.unwrap()), seen.depth, seen.free), ((1..=8).collect(), 0, vec![3, 2, 4]));

    let mut store = nine(4);
    store.apply(Batch::new().remove([5])).unwrap();
    assert_eq!(keys(&tree(&store).unwrap().root.unwrap()), [1, 2, 3, 4, 6, 7, 8, 9]);

    let mut store = nine(4);
    store.apply(&sets([10])).unwrap();
    store.apply(Batch::new().remove([1])).unwrap();
    let root = tree(&store).unwrap().root.unwrap();
    assert_eq!(
        (keys(&root), keys(&root.children[0]), keys(&root.children[1])),
        (vec![6], vec![2, 3, 4, 5], vec![7, 8, 9, 10])
    );
}

#[test]
fn set_and_removed_in_one_batch_is_an_empty_root() {
    let mut store = Store::new(1).unwrap();
    assert_eq!(store.apply(Batch::new().set([1], 1).remove([1])), Ok(2));
    assert_eq!(tree(&store).unwrap().root.unwrap().separators, []);
    assert_eq!(store.audit().unwrap().reached, 1);
}

#[test]
fn a_written_node_is_what_its_slot_holds() {
    let mut batch = Batch::new();
    for key in 1..=200u8 {
        batch.set(vec![key; usize::from(key) + 60], u64::from(key));
    }
    let mut store = Store::new(100).unwrap();
    assert_eq!(store.apply(&batch), Ok(200));
    let mut nodes = 0;
    tree(&store).unwrap().root.unwrap().visit(0, &mut |node, _| {
        let bytes = node.bytes().unwrap();
        let at = 24 + 2560 * (node.slot as usize - 1);
        assert_eq!(bytes.len() as u32, node_length(&store, node.slot as usize));
        assert_eq!(bytes, store.bytes()[at + 4..at + 4 + bytes.len()]);
        nodes += 1;
    });
    assert_eq!(nodes, store.audit().unwrap().reached);
}

#[test]
fn a_node_that_is_too_much_is_refused() {
    let leaf = |separators| Node { slot: 1, separators, children: Vec::new() };
    assert_eq!(leaf(vec![(vec![1], 1); 9]).bytes(), Err(Refusal::TooManySeparators));
    assert_eq!(leaf(vec![(vec![1; 289], 0)]).bytes(), Err(Refusal::LongKey));
    assert_eq!(leaf(vec![(vec![1; 288], 1), (vec![], 0)]).bytes(), Err(Refusal::BadValue));
    assert_eq!(leaf(vec![(vec![1; 288], 1); 8]).bytes().unwrap().len(), cikolaro::LONGEST_NODE);
}

#[test]
fn lines_are_one_batch_in_their_order() {
    let mut store = Store::new(3).unwrap();
    assert_eq!(store.run_lines(b"set\t61\t5\nset\t62\t7\ndel\t62\n"), Ok(3));
    let before = store.bytes().to_vec();
    for (text, refusal) in [
        (&b"set\t62\t1\nset\t61\t1\n"[..], Refusal::Falls),
        (b"set\t62\t0\n", Refusal::BadValue),
        (b"set\t62\t0\nset\n", Refusal::BadText),
    ] {
        assert_eq!(store.run_lines(text), Err(refusal.into()));
        assert_eq!(store.bytes(), before);
    }
    assert_eq!(store.get(b"a"), Ok(Some(5)));
    assert_eq!(store.get(b"b"), Ok(None));
}
