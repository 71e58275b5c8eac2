//! Node bytes, read by both readings, and stores with a node that only the lenient one takes.

use cikolaro::node::{read, read_strict, write};
use cikolaro::{Batch, Cursor, Refusal, Store, HEADER_SIZE, LONGEST_NODE};

/// One separator of key `ab` and value 5, children 7 and 9: 27 bytes.
fn one() -> Vec<u8> {
    write(&[7, 9], &[(b"ab", 5)]).unwrap()
}

fn full() -> Vec<u8> {
    write(&[], &[([1; 288], 1); 8]).unwrap()
}

/// The same with 0xFF and four bytes of length before its key.
fn low_size() -> Vec<u8> {
    let plain = one();
    [&plain[..16], &[0xFF, 2, 0, 0, 0], &plain[17..]].concat()
}

fn behind(mut front: Vec<u8>, bytes: &[u8]) -> Vec<u8> {
    front.extend(bytes);
    front
}

fn strictly(bytes: &[u8]) -> (Refusal, usize) {
    read_strict(bytes).map_err(|refused| (refused.refusal, refused.place)).unwrap_err()
}

#[test]
fn standard_form_is_read_alike() {
    for bytes in [one(), full(), write::<&[u8]>(&[7], &[]).unwrap(), write(&[], &[(b"", u64::MAX)]).unwrap()] {
        let node = read_strict(&bytes).unwrap();
        assert_eq!(Ok(&node), read(&bytes).as_ref());
        assert_eq!(write(&node.children, &node.separators).unwrap(), bytes);
    }
    assert_eq!(full().len(), LONGEST_NODE);
}

#[test]
fn sloppy_bytes_are_refused_at_their_place() {
    let cases = [
        (low_size(), Refusal::LowSize, 8),
        (behind(one(), &[0; 9]), Refusal::ZeroValue, 27),
        // The first flaw from the front is told.
        (behind(low_size(), &[0; 9]), Refusal::LowSize, 8),
        // 18 comes before 19.
        (behind(one(), &[0, 0, 0, 0, 0, 0, 0, 0, 0xFF, 0, 0, 0, 0]), Refusal::LowSize, 27),
        // 19 comes before 4.
        (behind(one(), &[&[0; 8][..], &[0xFF, 33, 1, 0, 0], &[1; 289]].concat()), Refusal::ZeroValue, 27),
        (behind(full(), &[0]), Refusal::BytesBehind, LONGEST_NODE),
    ];
    for (bytes, refusal, place) in cases {
        assert_eq!(strictly(&bytes), (refusal, place));
        let node = read(&bytes).unwrap();
        let plain = write(&node.children, &node.separators).unwrap();
        assert_eq!(read_strict(&plain), Ok(node));
    }
}

#[test]
fn bad_bytes_are_refused_alike() {
    let value = [5, 0, 0, 0, 0, 0, 0, 0];
    let long = [&value[..], &[0xFF, 33, 1, 0, 0], &[1; 289]].concat();
    let cases = [
        (vec![], Refusal::ShortChild, 0),
        (one()[..26].to_vec(), Refusal::ShortChild, 19),
        (behind(one(), &value), Refusal::ShortHead, 27),
        (behind(one(), &[&value[..], &[0xFF, 0, 0, 0]].concat()), Refusal::ShortSize, 27),
        (behind(one(), &[&value[..], &[2, 1]].concat()), Refusal::ShortKey, 27),
        (behind(one(), &[&value[..], &[0xFF, 2, 0, 0, 0, 1]].concat()), Refusal::ShortKey, 27),
        (behind(one(), &long), Refusal::LongKey, 27),
    ];
    for (bytes, refusal, place) in cases {
        assert_eq!(read(&bytes), Err(refusal));
        assert_eq!(strictly(&bytes), (refusal, place));
    }
}

/// A store of two slots whose root, a leaf in slot 1, has these bytes.
fn with_root(leaf: &[u8]) -> Store<Vec<u8>> {
    let mut store = Store::new(2).unwrap();
    store.apply(Batch::new().set(b"ab", 5)).unwrap();
    let mut bytes = store.into_bytes();
    bytes[HEADER_SIZE..HEADER_SIZE + 4].copy_from_slice(&(leaf.len() as u32).to_le_bytes());
    bytes[HEADER_SIZE + 4..HEADER_SIZE + 4 + leaf.len()].copy_from_slice(leaf);
    Store::unaudited(bytes)
}

#[test]
fn a_walk_that_meets_a_sloppy_node_is_refused() {
    let plain = write(&[], &[(b"ab", 5)]).unwrap();
    assert_eq!(with_root(&plain).get(b"ab"), Ok(Some(5)));
    let long_size = [&plain[..16], &[0xFF, 2, 0, 0, 0], &plain[17..]].concat();
    let eight: Vec<(&[u8], u64)> = [&b"a"[..], b"b", b"c", b"d", b"e", b"f", b"g", b"h"].map(|key| (key, 1)).into();
    let nine = behind(write(&[], &eight).unwrap(), &[1]);
    for leaf in [long_size, behind(plain, &[0; 9]), nine] {
        assert!(read(&leaf).is_ok());
        let mut store = with_root(&leaf);
        assert_eq!(store.audit(), Err(Refusal::Fails));
        assert_eq!(store.get(b"ab"), Err(Refusal::Fails));
        assert_eq!(Cursor::start().next(&store), Err(Refusal::Fails));
        assert_eq!(Cursor::end().prev(&store), Err(Refusal::Fails));
        assert_eq!(store.apply(&Batch::new()), Err(Refusal::Fails.into()));
    }
}
