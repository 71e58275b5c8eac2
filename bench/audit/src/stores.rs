//! The stores that the program crates/audits audits: good ones, and damaged
//! ones, each named by what is wrong in it. Where 01 lets it, only one sentence
//! is broken; a slot reached twice, for one, always brings its keys twice.

use crate::bases::*;
use crate::grown::Shape;
use crate::layout::*;
use crate::model::{self, Answer};

/// What stands in the mark words before an audit, as in crates/audits.
pub const MARK: u64 = 0xA5A5_A5A5_A5A5_A5A5;

pub struct Case {
    pub name: &'static str,
    pub buffer: Vec<u8>,
    pub words: usize,
}

impl Case {
    pub fn expected(&self) -> Answer {
        model::audit(&self.buffer, &vec![MARK; self.words])
    }
}

/// Refusals 1 and 2 stand behind the good ones; all others fail with 8.
pub fn all() -> Vec<Case> {
    let over = |base: fn() -> Vec<u8>, table: &[Damage]| -> Vec<Case> {
        table.iter().map(|damage| damaged(base(), damage)).collect()
    };
    let groups = [
        good(),
        over(whole, &SIZES),
        few_words(),
        over(whole, &SLOTS),
        over(formatted_6, &NO_ROOT),
        over(whole, &DEPTHS),
        forms(),
        over(whole, &KEYS),
        orders(),
        over(whole, &CHILDREN),
        numbers_of_separators(),
        over(whole, &CHAINS),
    ];
    groups.into_iter().flatten().collect()
}

type Damage = (&'static str, fn(&mut Vec<u8>));

fn damaged(mut buffer: Vec<u8>, damage: &Damage) -> Case {
    damage.1(&mut buffer);
    case(damage.0, buffer, 1)
}

fn case(name: &'static str, buffer: Vec<u8>, words: usize) -> Case {
    Case {
        name,
        buffer,
        words,
    }
}

// ---- good stores

#[rustfmt::skip]
fn good() -> Vec<Case> {
    let long_keys: [&[u8]; 7] = [
        b"",
        &[0],
        &[0, 0],
        &[0x7F; 254],
        &[0x7F; 255],
        &[0x80],
        &[0xFF; 288],
    ];
    vec![
        case("formatted, 6 slots", formatted(6), 1),
        case("formatted, 1 slot", formatted(1), 1),
        case("formatted, 65 slots, four words lent", formatted(65), 4),
        case("an empty root", leaf(&node(&[], &[])), 1),
        case("one leaf", leaf_of(&[b"a", b"ab", b"b"]), 1),
        case("one leaf in the only slot", leaf_in(1, 1, &node(&[], &pairs(&[1]))), 1),
        case("one leaf, four words lent", leaf_of(&[b"a"]), 4),
        case("one leaf in slot 64 of 64", leaf_in(64, 64, &node(&[], &pairs(&[1]))), 1),
        case("keys of 0, 1, 2, 254, 255, 1 and 288 bytes", leaf_of(&long_keys), 1),
        case("the largest node, 2480 bytes", leaf(&largest()), 1),
        case("depth 1, freed slots in the chain", whole(), 1),
        case("depth 1, two leaves", grown(&inner(2, 4), 3, vec![1, 2, 3]), 1),
        case("depth 1, nine leaves of 8", grown(&inner(9, 8), 10, (1..=10).collect()), 1),
        case("depth 2, 13 of 16 slots", grown(&deep(), 16, (1..=13).collect()), 1),
        case("depth 2, 13 of 65 slots, two words", spread(), 2),
        case("depth 2, 13 of 65 slots, four words lent", spread(), 4),
    ]
}

// ---- refusals 1 and 2

/// "buffer isn't 24+2,560×count bytes, count outside 1..65,535, bytes 20..23
/// not 0"
#[rustfmt::skip]
const SIZES: [Damage; 12] = [
    ("no byte", |b| b.clear()),
    ("23 bytes", |b| b.truncate(23)),
    ("24 bytes, count 0", |b| { b.truncate(24); b[12] = 0; }),
    ("24 bytes, count 1", |b| { b.truncate(24); b[12] = 1; }),
    ("a byte too few", |b| { b.pop(); }),
    ("a byte too many", |b| b.push(0)),
    ("a slot too few", |b| b.truncate(b.len() - SLOT)),
    ("a slot too many", |b| b.extend([0; SLOT])),
    ("a count that is 65536 too high", |b| b[14] = 1),
    ("a count that is 2^24 too high", |b| b[15] = 1),
    ("byte 20 not 0", |b| b[20] = 1),
    ("byte 23 not 0", |b| b[23] = 0x80),
];

/// 1 comes before 2, and 2 before 8.
fn few_words() -> Vec<Case> {
    let mut not_a_store = whole();
    not_a_store[21] = 1;
    let mut fails = whole();
    fails[8] = 8;
    vec![
        case("byte 21 not 0, and no mark word", not_a_store, 0),
        case("no mark word for 1 slot", formatted(1), 0),
        case("no mark word for 64 slots", formatted(64), 0),
        case("one mark word for 65 slots", spread(), 1),
        case("depth 8, and no mark word", fails, 0),
    ]
}

// ---- slots and their layout

fn length(buffer: &mut [u8], slot: u64, length: u32) {
    put_u32(buffer, start_of(slot), length);
}

/// The next free slot of one.
fn next(buffer: &mut [u8], slot: u64, next: u32) {
    put_u32(buffer, start_of(slot) + 4, next);
}

/// "every slot has its layout above, zeros included"
#[rustfmt::skip]
const SLOTS: [Damage; 9] = [
    ("a used slot with a byte behind the node", |b| b[node_of(MIDDLE) + 80] = 1),
    ("a used slot whose last byte isn't zero", |b| b[start_of(MIDDLE) + SLOT - 1] = 1),
    ("a node length of 0", |b| length(b, MIDDLE, 0)),
    ("a node length of 65536 too high", |b| length(b, MIDDLE, 80 + 65_536)),
    ("a node length of 2^32-1", |b| length(b, MIDDLE, u32::MAX)),
    ("a free slot whose byte 8 isn't zero", |b| b[start_of(FREE[1]) + 8] = 1),
    ("a free slot whose last byte isn't zero", |b| b[start_of(FREE[1]) + SLOT - 1] = 1),
    ("a free slot with a length of 1", |b| length(b, FREE[1], 1)),
    ("a free slot with a length of 2^24", |b| length(b, FREE[1], 1 << 24)),
];

/// "with no root, depth is 0 and all slots are free"
#[rustfmt::skip]
const NO_ROOT: [Damage; 9] = [
    ("no root but depth 1", |b| b[8] = 1),
    ("no root but depth 7", |b| b[8] = 7),
    ("no root but depth 2^24", |b| b[11] = 1),
    ("no root but a slot in use, beside the chain", |b| { put_node(b, 1, &node(&[], &pairs(&[1]))); b[16] = 2; }),
    ("no root but a slot in use, in the chain", |b| length(b, 3, 8)),
    ("no root, and a first free slot beyond the count", |b| b[16] = 7),
    ("no root, and a last next free slot beyond the count", |b| next(b, 6, 7)),
    ("no root, and no chain", |b| b[16] = 0),
    ("no root, and a chain of all slots that doesn't end", |b| next(b, 6, 1)),
];

// ---- the tree

/// Where child i of the root stands.
fn child(i: usize) -> usize {
    node_of(ROOT) + 18 * i
}

/// Where the key of separator i stands, in a node with keys of one byte.
fn key(slot: u64, i: usize) -> usize {
    node_of(slot) + 8 + 18 * i + 9
}

/// "With a root, depth is at most 7"
#[rustfmt::skip]
const DEPTHS: [Damage; 5] = [
    ("depth 8", |b| b[8] = 8),
    ("depth 257", |b| b[9] = 1),
    ("depth 2^32-1", |b| put_u32(b, 8, u32::MAX)),
    ("a depth one too high", |b| b[8] = 2),
    ("a depth one too low", |b| { b[8] = 0; put_chain(b, &[FREE[0], FREE[1], FREE[2], LEFT, MIDDLE, RIGHT]); }),
];

/// "keys strictly increase over the whole tree read in order"
#[rustfmt::skip]
const KEYS: [Damage; 7] = [
    ("equal keys in a node", |b| b[key(MIDDLE, 1)] = 60),
    ("falling keys in a node", |b| b[key(MIDDLE, 1)] = 55),
    ("a leaf's first key equal to the separator before", |b| b[key(MIDDLE, 0)] = 50),
    ("a leaf's first key below the separator before", |b| b[key(MIDDLE, 0)] = 45),
    ("a leaf's last key equal to the separator behind", |b| b[key(MIDDLE, 3)] = 100),
    ("a leaf's last key above the separator behind", |b| b[key(MIDDLE, 3)] = 105),
    ("two leaves changed over", |b| { put_u64(b, child(0), RIGHT); put_u64(b, child(2), LEFT); }),
];

/// Takes a leaf out of the root, so that only the child's number is wrong: the
/// leaf becomes the last free slot.
fn replaced(buffer: &mut [u8], i: usize, number: u64) {
    let leaf = [LEFT, MIDDLE, RIGHT][i];
    put_u64(buffer, child(i), number);
    put_chain(buffer, &[FREE[0], FREE[1], FREE[2], leaf]);
}

/// "a node at depth 0 has only zero children, one above it has one more child
/// than separators", "no slot is reached twice", "no number names a slot
/// beyond the count"
#[rustfmt::skip]
const CHILDREN: [Damage; 17] = [
    ("a first child at depth 0", |b| put_u64(b, node_of(MIDDLE), LEFT)),
    ("a last child at depth 0", |b| put_u64(b, node_of(MIDDLE) + 72, FREE[0])),
    ("2^32 as a child at depth 0", |b| put_u64(b, node_of(MIDDLE) + 18, 1 << 32)),
    ("the first child missing above depth 0", |b| replaced(b, 0, 0)),
    ("a middle child missing above depth 0", |b| replaced(b, 1, 0)),
    ("the last child missing above depth 0", |b| replaced(b, 2, 0)),
    ("a slot reached twice", |b| replaced(b, 2, MIDDLE)),
    ("a root that is its own child", |b| replaced(b, 1, ROOT)),
    ("a root beyond the count", |b| put_u64(b, 0, COUNT + 1)),
    ("a root of 65536 more", |b| put_u64(b, 0, 65_536 + ROOT)),
    ("a root of 2^32 more", |b| put_u64(b, 0, (1 << 32) + ROOT)),
    ("a root that is a free slot", |b| put_u64(b, 0, FREE[0])),
    ("a child beyond the count", |b| replaced(b, 1, COUNT + 1)),
    ("2^32+2 as a child", |b| put_u64(b, child(1), (1 << 32) + MIDDLE)),
    ("2^63+2 as a child", |b| put_u64(b, child(1), (1 << 63) + MIDDLE)),
    ("65538 as a child", |b| put_u64(b, child(1), 65_536 + MIDDLE)),
    ("a child that is a free slot", |b| replaced(b, 1, FREE[0])),
];

/// "the free chain holds exactly the slots not reached, each free and each
/// once, and ends", "no number names a slot beyond the count"
#[rustfmt::skip]
const CHAINS: [Damage; 13] = [
    ("a first free slot beyond the count", |b| put_u32(b, 16, COUNT as u32 + 1)),
    ("a first free slot of 65536 more", |b| put_u32(b, 16, 65_536 + FREE[0] as u32)),
    ("a next free slot beyond the count", |b| next(b, FREE[2], COUNT as u32 + 1)),
    ("a next free slot of 65536 more", |b| next(b, FREE[0], 65_536 + FREE[1] as u32)),
    ("a slot both in the tree and first in the chain", |b| put_u32(b, 16, LEFT as u32)),
    ("a slot both in the tree and last in the chain", |b| next(b, FREE[2], RIGHT as u32)),
    ("a free slot in neither, skipped by the chain", |b| next(b, FREE[0], FREE[2] as u32)),
    ("a free slot in neither, behind the chain's end", |b| next(b, FREE[1], 0)),
    ("a used slot in neither", |b| { put_node(b, FREE[2], &node(&[], &pairs(&[200]))); next(b, FREE[1], 0); }),
    ("no chain, but free slots", |b| put_u32(b, 16, 0)),
    ("a chain that doesn't end", |b| next(b, FREE[2], FREE[0] as u32)),
    ("a chain that comes back to its second slot", |b| next(b, FREE[2], FREE[1] as u32)),
    ("a free slot that is its own next", |b| next(b, FREE[2], FREE[2] as u32)),
];

// ---- nodes made by hand

/// A separator's value address and the bytes that come in the length's place.
fn head(value: u64, size: &[u8]) -> Vec<u8> {
    [&value.to_le_bytes(), size].concat()
}

/// A leaf with the key `a`, and these bytes behind it within the node.
fn with_behind(bytes: &[u8]) -> Vec<u8> {
    leaf(&[&node(&[], &[pair(b"a")])[..], bytes].concat())
}

/// A leaf of one separator: the head as given, the key, a child of 0.
fn with_head(head: &[u8], key: &[u8]) -> Vec<u8> {
    leaf(&[&[0; 8], head, key, &[0; 8]].concat())
}

/// "every reached node is in standard form"; the leaf is the root, so that
/// its separators are not too few.
#[rustfmt::skip]
fn forms() -> Vec<Case> {
    let eight = node(&[], &pairs(&[1, 2, 3, 4, 5, 6, 7, 8]));
    let nine = node(&[], &pairs(&[1, 2, 3, 4, 5, 6, 7, 8, 9]));
    let long_size = |n: u32| [&[255], &n.to_le_bytes()[..]].concat();
    let mut short = leaf(&node(&[], &[]));
    length(&mut short, 1, 7);
    let mut child_cut = leaf_of(&[b"a"]);
    length(&mut child_cut, 1, 25);
    let mut over = leaf(&largest());
    length(&mut over, 1, 2_481);
    let value_0 = |key: &[u8]| [&head(0, &[key.len() as u8]), key, &[0; 8]].concat();
    vec![
        case("a node of 7 bytes", short, 1),
        case("a node of 2481 bytes", over, 1),
        case("a length of 1 behind 0xFF", with_head(&head(5, &long_size(1)), b"a"), 1),
        case("a length of 254 behind 0xFF", with_head(&head(5, &long_size(254)), &[7; 254]), 1),
        case("a key of 289 bytes", with_head(&head(5, &long_size(289)), &[7; 289]), 1),
        case("a separator with value 0 behind the last", with_behind(&value_0(b"b")), 1),
        case("a first separator with value 0", with_head(&head(0, &[1]), b"a"), 1),
        case("a byte behind the ninth child", leaf(&[&eight[..], &[0]].concat()), 1),
        case("a ninth separator", leaf(&nine), 1),
        case("a child cut short", child_cut, 1),
        case("a separator's head cut short", with_behind(&[0]), 1),
        case("a long size cut short", with_behind(&head(5, &[255, 0x20, 1])), 1),
        case("a key cut short", with_behind(&head(5, &[4, 7, 7])), 1),
    ]
}

/// Keys in one leaf where a comparison could go wrong, and over two levels.
#[rustfmt::skip]
fn orders() -> Vec<Case> {
    let mut over_root = grown(&deep(), 16, (1..=13).collect());
    // The last key below the root's first child; the root has key 25.
    let last = node_of(7) + 8 + 3 * 19 + 9;
    put(&mut over_root, last, &short_key(26));
    vec![
        case("a key before its proper prefix", leaf_of(&[b"ab", b"a"]), 1),
        case("the empty key behind another", leaf_of(&[b"a", b""]), 1),
        case("the empty key twice", leaf_of(&[b"", b""]), 1),
        case("0x80 before 0x7F", leaf_of(&[&[0x80], &[0x7F]]), 1),
        case("equal keys of 288 bytes", leaf_of(&[&[7; 288], &[7; 288]]), 1),
        case("a key in the first half of depth 2 above the root's", over_root, 1),
    ]
}

/// "every node but the root has 4 to 8 separators, the root .. at least 1
/// where depth is above 0"
#[rustfmt::skip]
fn numbers_of_separators() -> Vec<Case> {
    let first = |n: usize| Shape::Inner(vec![Shape::Leaf(n), Shape::Leaf(4)]);
    let last = |n: usize| Shape::Inner(vec![Shape::Leaf(4), Shape::Leaf(n)]);
    let inners = Shape::Inner(vec![inner(5, 4), inner(4, 4)]);
    vec![
        case("3 separators in the first leaf below the root", grown(&first(3), 3, vec![1, 2, 3]), 1),
        case("3 separators in the last leaf below the root", grown(&last(3), 3, vec![1, 2, 3]), 1),
        case("no separator in a leaf below the root", grown(&last(0), 3, vec![1, 2, 3]), 1),
        case("3 separators in an inner node below the root", grown(&inners, 16, (1..=16).collect()), 1),
        case("a root above depth 0 with no separator", grown(&inner(1, 4), 3, vec![1, 2]), 1),
    ]
}
