//! Damaged stores, one for each cause of a walk's 8 and of refusal 1, some
//! that an audit refuses and a walk doesn't, and some with sloppy nodes.

use super::frame::Frame;
use super::walks::{laid_out, put, put_node, Asking, Kind};
use crate::model::buffer::{start_of, HEADER, SLOT};
use crate::model::bytes::Way;
use crate::model::codec;
use crate::model::store::Store;
use original::btree::glue::{Change, Pair};

/// Keys that are asked for, those of the store and others.
const KEYS: [&[u8]; 14] = [
    b"",
    &[5],
    &[10],
    &[40],
    &[40, 0],
    &[50],
    &[55],
    &[60],
    &[90],
    &[100],
    &[110],
    &[140],
    &[140, 1],
    &[255],
];

const LETTERS: [&[u8]; 6] = [b"", b"a", b"m", b"n", b"x", b"z"];

/// Keys that are asked of a store with full nodes.
const FULL_KEYS: [&[u8]; 16] = [
    b"",
    &[5],
    &[20],
    &[25],
    &[30],
    &[50],
    &[55],
    &[57],
    &[70],
    &[75],
    &[100],
    &[200],
    &[205],
    &[222],
    &[240],
    &[240, 1],
];

pub fn blocks() -> Vec<Frame> {
    let mut blocks = Vec::new();
    add_damaged(&mut blocks, &whole(), &HEADERS, &KEYS);
    add_damaged(&mut blocks, &whole(), &NODES, &KEYS);
    blocks.extend(made().into_iter().map(|buffer| asked(buffer, &LETTERS)));
    add_damaged(&mut blocks, &whole(), &SLOPPY, &KEYS);
    add_damaged(&mut blocks, &full(), &SLOPPY_FULL, &FULL_KEYS);
    let stores = sloppy_made().into_iter();
    blocks.extend(stores.map(|buffer| asked(buffer, &LETTERS)));
    blocks
}

fn add_damaged(blocks: &mut Vec<Frame>, good: &[u8], damages: &[Damage], keys: &[&[u8]]) {
    for damage in damages {
        let mut buffer = good.to_vec();
        damage(&mut buffer);
        blocks.push(asked(buffer, keys));
    }
}

/// Keys 10, 20, .. 140: the leaves 10..40, 60..90, 110..140 in slots 1, 2, 4,
/// the root with 50 and 100 in slot 3; 5 and 6 are free.
fn whole() -> Vec<u8> {
    let mut store = Store::format(6);
    let records: Vec<Change> = (1..=14u8)
        .map(|n| Change::Set(vec![10 * n], n.into()))
        .collect();
    assert_eq!(store.batch(&records).number, 0);
    laid_out(&store.shape(), &store.free_chain())
}

const ROOT: u64 = 3;
const LEFT: u64 = 1;
const MIDDLE: u64 = 2;
const RIGHT: u64 = 4;
const FREE: u64 = 5;
const COUNT: u64 = 6;

/// Where the bytes of a node begin.
fn node(slot: u64) -> usize {
    start_of(slot) + 4
}

/// Where child i of the root stands.
fn child(i: usize) -> usize {
    node(ROOT) + 18 * i
}

/// Where separator i of a node with keys of one byte stands.
fn separator(slot: u64, i: usize) -> usize {
    node(slot) + 8 + 18 * i
}

fn number(buffer: &mut [u8], at: usize, number: u64) {
    put(buffer, at, &number.to_le_bytes());
}

fn length(buffer: &mut [u8], slot: u64, length: u32) {
    put(buffer, start_of(slot), &length.to_le_bytes());
}

type Damage = fn(&mut Vec<u8>);

/// Size and header. The whole store stands first.
#[rustfmt::skip]
const HEADERS: [Damage; 24] = [
    |_| (),
    // Refusal 1.
    |b| b.clear(),
    |b| b.truncate(HEADER - 1),
    |b| b.truncate(HEADER),
    |b| { b.pop(); },
    |b| b.push(0),
    |b| b.truncate(b.len() - SLOT),
    |b| { b.truncate(HEADER); b[12] = 0; },
    |b| b[12] = COUNT as u8 + 1,
    |b| b[12] = COUNT as u8 - 1,
    |b| b[14] = 1,
    |b| b[15] = 255,
    |b| b[20] = 1,
    |b| b[23] = 128,
    // Depth.
    |b| b[8] = 8,
    |b| b[11] = 1,
    |b| { b[8] = 8; b[0] = 0; },
    |b| b[0] = 0,
    |b| { b[8] = 7; b[0] = 0; },
    |b| b[8] = 0,
    |b| b[8] = 2,
    // The root: beyond the count, or cut to 32 bits it would be the root.
    |b| number(b, 0, COUNT + 1),
    |b| number(b, 0, (1 << 32) + ROOT),
    |b| number(b, 0, FREE),
];

/// Nodes. What isn't a walk's business (free chain, zeros) stands last.
#[rustfmt::skip]
const NODES: [Damage; 29] = [
    // Length.
    |b| length(b, MIDDLE, 7),
    |b| length(b, MIDDLE, 2481),
    |b| length(b, MIDDLE, u32::MAX),
    |b| length(b, ROOT, 0),
    // Readings cut short: 11, 12, 13, 14.
    |b| length(b, MIDDLE, 79),
    |b| length(b, MIDDLE, 70),
    |b| { b[separator(MIDDLE, 3) + 8] = 255; length(b, MIDDLE, 74); },
    |b| b[separator(MIDDLE, 3) + 8] = 200,
    // A key of 289 bytes, and one of 288.
    |b| { let key = vec![70; 289]; put_node(b, MIDDLE, &long(&key)); },
    |b| { let key = vec![70; 288]; put_node(b, MIDDLE, &long(&key)); },
    // Children of the root that aren't there.
    |b| number(b, child(0), 0),
    |b| number(b, child(1), 0),
    |b| number(b, child(2), 0),
    |b| number(b, child(1), COUNT + 1),
    |b| number(b, child(1), (1 << 32) + MIDDLE),
    |b| number(b, child(1), 1 << 63),
    |b| number(b, child(1), FREE),
    // Its own child; one child twice.
    |b| number(b, child(1), ROOT),
    |b| number(b, child(2), LEFT),
    // A leaf with children, first and last.
    |b| number(b, node(MIDDLE), LEFT),
    |b| number(b, node(RIGHT) + 72, LEFT),
    // Sloppy: a separator with value 0, in a leaf and in the root.
    |b| number(b, separator(MIDDLE, 1), 0),
    |b| number(b, separator(ROOT, 1), 0),
    // Sloppy: a length below 255 behind 0xFF; twenty zeros behind the last
    // child, which begin as a separator with value 0.
    |b| put_node(b, MIDDLE, &long_size()),
    |b| { length(b, MIDDLE, 100); },
    // Keys out of order: two leaves changed over; a key in its wrong leaf.
    |b| { number(b, child(0), RIGHT); number(b, child(2), LEFT); },
    |b| b[separator(MIDDLE, 1) + 9] = 200,
    // Free chain and zeros.
    |b| { b[16] = 200; b[start_of(FREE) + 4] = 77; },
    |b| { let end = b.len() - 1; b[end] = 1; b[start_of(RIGHT) + 2000] = 9; },
];

/// Sloppy nodes with all entries in them, so that the original finds what it
/// found before (D11): a leaf, then the root.
#[rustfmt::skip]
const SLOPPY: [Damage; 4] = [
    |b| write_long_size(b, MIDDLE, 3),
    |b| write_behind(b, MIDDLE, &ZERO_SEPARATOR),
    |b| write_long_size(b, ROOT, 1),
    |b| write_behind(b, ROOT, &ZERO_SEPARATOR),
];

/// The same where a leaf and the root have eight separators. The store without
/// a flaw stands first.
#[rustfmt::skip]
const SLOPPY_FULL: [Damage; 15] = [
    |_| (),
    // A long size below 255: the last leaf, the root.
    |b| write_long_size(b, LAST, 0),
    |b| write_long_size(b, LAST, 7),
    |b| write_long_size(b, ROOT, 0),
    |b| write_long_size(b, ROOT, 7),
    // A separator with value 0: a leaf and the root, first and last.
    |b| number(b, separator(RIGHT, 0), 0),
    |b| number(b, separator(LAST, 7), 0),
    |b| number(b, separator(ROOT, 0), 0),
    |b| number(b, separator(ROOT, 7), 0),
    // Bytes after the end: one, or a whole separator and child.
    |b| write_behind(b, LAST, &[0]),
    |b| write_behind(b, LAST, &MORE),
    |b| write_behind(b, ROOT, &[0]),
    |b| write_behind(b, ROOT, &MORE),
    // One flaw of each kind, each in a leaf of its own.
    |b| {
        write_long_size(b, LEFT, 0);
        write_behind(b, RIGHT, &ZERO_SEPARATOR);
        write_behind(b, LAST, &[9]);
    },
    // A sloppy node in a slot that isn't reached.
    |b| put_node(b, UNREACHED, &long_size()),
];

/// A separator with value 0 and an empty key.
const ZERO_SEPARATOR: [u8; 9] = [0; 9];

/// A separator with value 1 and the key 250, and a child that is missing.
const MORE: [u8; 18] = [1, 0, 0, 0, 0, 0, 0, 0, 1, 250, 0, 0, 0, 0, 0, 0, 0, 0];

const LAST: u64 = 10;
const UNREACHED: u64 = 11;

/// Keys 5, 10, .. 240: leaves of four in slots 1, 2, 4, 5, .. 9 and one of
/// eight in slot 10, a root of eight (25, 50, .. 200) in slot 3; 11 is free.
fn full() -> Vec<u8> {
    let mut store = Store::format(11);
    let records: Vec<Change> = (1..=48u8)
        .map(|n| Change::Set(vec![5 * n], n.into()))
        .collect();
    assert_eq!(store.batch(&records).number, 0);
    let buffer = laid_out(&store.shape(), &store.free_chain());
    let separators = |slot| (node_bytes(&buffer, slot).len() - 8) / 18;
    assert_eq!([ROOT, RIGHT, LAST].map(separators), [8, 4, 8]);
    buffer
}

fn node_bytes(buffer: &[u8], slot: u64) -> Vec<u8> {
    let (length, bytes) = buffer[start_of(slot)..]
        .split_first_chunk()
        .expect("a slot is longer");
    bytes[..u32::from_le_bytes(*length) as usize].to_vec()
}

/// Writes the length of separator i, a key of one byte, in four bytes.
fn write_long_size(buffer: &mut [u8], slot: u64, i: usize) {
    let mut bytes = node_bytes(buffer, slot);
    let size = separator(slot, i) - node(slot) + 8;
    bytes.splice(size..size + 1, [255, 1, 0, 0, 0]);
    put_node(buffer, slot, &bytes);
}

fn write_behind(buffer: &mut [u8], slot: u64, behind: &[u8]) {
    let bytes = node_bytes(buffer, slot);
    put_node(buffer, slot, &[&bytes, behind].concat());
}

/// A leaf with this key and two others.
fn long(key: &[u8]) -> Vec<u8> {
    let mut bytes = vec![0; 8];
    for (key, value) in [(&[60][..], 60), (key, 61), (&[80][..], 62)] {
        codec::add_separator(&mut bytes, key, value);
        bytes.extend([0; 8]);
    }
    bytes
}

/// A leaf whose short key has its length in four bytes.
fn long_size() -> Vec<u8> {
    let mut bytes = vec![0; 8];
    number_of(&mut bytes, 60);
    bytes.push(255);
    bytes.extend(2u32.to_le_bytes());
    bytes.extend([60, 1]);
    bytes.extend([0; 8]);
    bytes
}

fn number_of(bytes: &mut Vec<u8>, number: u64) {
    bytes.extend(number.to_le_bytes());
}

/// A store with these nodes in slots 1, 2, ..., the root in slot 1.
fn store(depth: u32, nodes: &[(&[u64], &[Pair])]) -> Vec<u8> {
    let mut buffer = vec![0; HEADER + SLOT * nodes.len()];
    buffer[0] = 1;
    buffer[12] = nodes.len() as u8;
    put(&mut buffer, 8, &depth.to_le_bytes());
    for (slot, (children, separators)) in (1..).zip(nodes) {
        let bytes = codec::write(children, separators).expect("it can be written");
        put_node(&mut buffer, slot, &bytes);
    }
    buffer
}

fn pair(key: &[u8], value: u64) -> Pair {
    (key.to_vec(), value)
}

/// Stores of few nodes: D4, D5, D6, then D1, D2, D3 of docs/DIFFERENCES.md;
/// equal keys; a root of nothing but a child; a way of depth 7, and one longer.
fn made() -> Vec<Vec<u8>> {
    let m: &[Pair] = &[pair(b"m", 1)];
    let z: &[Pair] = &[pair(b"z", 2)];
    let x: &[Pair] = &[pair(b"x", 3)];
    let a: &[Pair] = &[pair(b"a", 4)];
    let mut stores = vec![
        store(1, &[(&[2, 3], m), (&[], z), (&[], x)]),
        store(1, &[(&[0, 2], m), (&[], &[])]),
        store(0, &[(&[2, 3], m), (&[], a), (&[], z)]),
        store(1, &[(&[2, 3], m), (&[], m), (&[], m)]),
        store(1, &[(&[2], &[]), (&[], a)]),
        store(1, &[(&[2, 2], m), (&[], &[])]),
        store(0, &[(&[], &[])]),
        store(0, &[(&[], &[pair(&[1], 5)])]),
        store(0, &[(&[], &[pair(b"", 5)])]),
    ];
    let kids: Vec<[u64; 1]> = (2..=9).map(|slot| [slot]).collect();
    for deep in [7, 8] {
        let mut nodes: Vec<(&[u64], &[Pair])> =
            kids[..deep].iter().map(|kid| (&kid[..], &[][..])).collect();
        nodes.push((&[], m));
        stores.push(store(deep as u32, &nodes));
    }
    stores
}

/// Stores with one sloppy node: a root at depth 0, with each flaw; then a node
/// between the root and the leaves, with each.
fn sloppy_made() -> Vec<Vec<u8>> {
    let flaws: [fn(&mut [u8], u64); 3] = [
        |b, slot| write_long_size(b, slot, 7),
        |b, slot| number(b, separator(slot, 7), 0),
        |b, slot| write_behind(b, slot, &[0]),
    ];
    let letters: Vec<Pair> = (b'a'..=b'h').map(|c| pair(&[c], c.into())).collect();
    let flat = store(0, &[(&[], &letters)]);
    let mut stores = Vec::new();
    for (good, slot) in [(flat, 1), (three_rows(&letters), 2)] {
        for flaw in flaws {
            let mut buffer = good.clone();
            flaw(&mut buffer, slot);
            stores.push(buffer);
        }
    }
    stores
}

/// A root with `m`, a full node on its left, one with `x` on its right, and
/// empty leaves.
fn three_rows(full: &[Pair]) -> Vec<u8> {
    let left: Vec<u64> = (4..=12).collect();
    let mut nodes: Vec<(&[u64], &[Pair])> = vec![(&[], &[]); 14];
    let m = [pair(b"m", 1)];
    let x = [pair(b"x", 3)];
    nodes[0] = (&[2, 3], &m);
    nodes[1] = (&left, full);
    nodes[2] = (&[13, 14], &x);
    store(2, &nodes)
}

/// What is asked of every one, in the same order.
fn asked(buffer: Vec<u8>, keys: &[&[u8]]) -> Frame {
    let mut asking = Asking::of(buffer);
    for key in keys {
        let _ = asking.lookup(key);
    }
    let _ = asking.lookup(&[7; 289]);
    from_ends(&mut asking);
    for key in keys {
        from_key(&mut asking, key);
    }
    too_long(&mut asking, keys[2]);
    asking.block()
}

fn steps(asking: &mut Asking, ways: &[Way]) {
    for way in ways {
        let _ = asking.step(*way);
    }
}

use Way::{Backward, Forward};

fn from_ends(asking: &mut Asking) {
    asking.put(Kind::Start, 0, b"old");
    steps(asking, &[Forward, Forward, Forward, Backward, Backward]);
    asking.put(Kind::End, 0, b"old");
    steps(asking, &[Backward, Backward, Backward, Forward, Forward]);
    asking.put(Kind::Start, 0, b"old");
    steps(asking, &[Backward, Forward]);
    asking.put(Kind::End, 0, b"old");
    steps(asking, &[Forward, Backward]);
    // D2: to the end behind a none.
    asking.seek(&[0]);
    steps(asking, &[Backward]);
    asking.put(Kind::End, 0, b"old");
    steps(asking, &[Backward]);
}

fn from_key(asking: &mut Asking, key: &[u8]) {
    let length = key.len() as u64;
    asking.seek(key);
    steps(asking, &[Forward, Backward]);
    asking.seek(key);
    steps(asking, &[Backward, Forward]);
    asking.put(Kind::At, length, key);
    steps(asking, &[Forward]);
    asking.put(Kind::At, length, key);
    steps(asking, &[Backward]);
    asking.put(Kind::Seeked, length, key);
    steps(asking, &[Forward, Forward]);
}

/// Refusal 4 leaves the cursor as it was; 288 bytes are not too long.
fn too_long(asking: &mut Asking, key: &[u8]) {
    for (kind, length) in [
        (Kind::At, 289),
        (Kind::Seeked, 289),
        (Kind::Seeked, 1 << 63),
    ] {
        asking.put(kind, length, key);
        steps(asking, &[Forward, Backward]);
    }
    asking.seek(key);
    asking.seek(&[7; 289]);
    steps(asking, &[Forward]);
    asking.put(Kind::At, 288, key);
    steps(asking, &[Forward]);
    asking.put(Kind::Seeked, 288, key);
    steps(asking, &[Backward]);
}
