//! Node readings: what the original answers, in 01's numbers, and what the
//! strict reading owes to it.

use crate::model::codec::{
    self, add_separator, Reading, Refused, StrictRefused, BYTES_BEHIND, CHILD_CUT, HEAD_CUT,
    KEY_CUT, KEY_TOO_LONG, LONGEST_KEY, LONG_SIZE_SMALL, MOST_SEPARATORS, SEPARATOR_ZERO, SIZE_CUT,
};
use crate::nodes::add_long_separator;
use original::btree::glue::{read_node, write_node, Error, NodeParts};

/// The original's complaints and 01's numbers for them.
const COMPLAINTS: [(&str, u8); 4] = [
    ("Entry too small for Index", CHILD_CUT),
    ("Unaligned separator", HEAD_CUT),
    ("Cannot read size of key", SIZE_CUT),
    ("Entry too small for key of len ", KEY_CUT),
];

/// What the original answers: the node, or 01's number for its complaint.
pub fn original_answer(bytes: &[u8]) -> Result<NodeParts, u8> {
    read_node(bytes).map_err(|error| match error {
        Error::Corruption(text) => number_of(&text),
        other => unreachable!("reading complains of the bytes only: {other:?}"),
    })
}

fn number_of(text: &str) -> u8 {
    let known = COMPLAINTS.iter().find(|(start, _)| text.starts_with(start));
    known.expect("one of four complaints").1
}

/// The answer that 01 asks for. It is the original's, and our reading of 01
/// has to agree; only 4 is ours (D7), and then the original has to accept the
/// long key where we refuse it. Panics where the two part.
pub fn answer(bytes: &[u8]) -> Result<Reading, u8> {
    let ours = codec::read(bytes);
    if let Err(refused @ Refused { number: 4, .. }) = &ours {
        check_too_long(bytes, refused);
        return Err(KEY_TOO_LONG);
    }
    let theirs = original_answer(bytes);
    match (ours, theirs) {
        (Ok(ours), Ok(theirs)) => {
            check_equal(bytes, &ours, &theirs);
            Ok(ours)
        }
        (Err(ours), Err(theirs)) => {
            assert_eq!(ours.number, theirs, "reading {bytes:?}");
            Err(theirs)
        }
        (ours, theirs) => panic!("reading {bytes:?}: 01 {ours:?}, the original {theirs:?}"),
    }
}

fn check_equal(bytes: &[u8], ours: &Reading, theirs: &NodeParts) {
    let mut children = [0; codec::MOST_CHILDREN];
    children[..ours.children.len()].copy_from_slice(&ours.children);
    assert_eq!(children, theirs.children, "children of {bytes:?}");
    let ours = ours.separators.iter();
    let ours: Vec<_> = ours
        .map(|s| (bytes[s.key.clone()].to_vec(), s.value))
        .collect();
    assert_eq!(ours, theirs.separators, "separators of {bytes:?}");
    assert!(ours.iter().all(|(key, _)| key.len() <= LONGEST_KEY));
}

/// Cut off behind the key that we refuse, with one more child, the original
/// reads on to there and keeps the key.
fn check_too_long(bytes: &[u8], refused: &Refused) {
    let cut = [&bytes[..refused.at], &[0; 8]].concat();
    let read = read_node(&cut).expect("the original has no longest key");
    let (last, before) = read.separators.split_last().expect("there is a long key");
    assert!(last.0.len() > LONGEST_KEY);
    assert!(before.iter().all(|(key, _)| key.len() <= LONGEST_KEY));
    assert_eq!(before.len(), refused.before.separators.len());
}

/// The strict reading's answer. The original has no such reading, but it fixes
/// this one: accepted is what it reads and would write, byte for byte. Panics
/// where a refusal isn't the lenient one's (4, 11 to 14), or isn't what stands
/// at its place (18 to 20).
pub fn strict_answer(bytes: &[u8]) -> Result<Reading, StrictRefused> {
    let lenient = answer(bytes);
    let strict = codec::read_strict(bytes);
    let is_standard = lenient.is_ok() && is_what_is_written(bytes);
    assert_eq!(strict.is_ok(), is_standard, "reading {bytes:?} strictly");
    match &strict {
        Ok(node) => assert_eq!(lenient.as_ref(), Ok(node), "reading {bytes:?}"),
        Err(refused) => check_place(bytes, refused, lenient.err()),
    }
    strict
}

/// Whether the original reads the bytes, and writes the same again.
fn is_what_is_written(bytes: &[u8]) -> bool {
    let written = read_node(bytes).and_then(|node| write_node(&node));
    written.is_ok_and(|written| written == bytes)
}

/// Before the place stands what is written, as far as it goes: up to a child,
/// but for 11, where the child is missing.
fn check_place(bytes: &[u8], refused: &StrictRefused, lenient: Option<u8>) {
    let StrictRefused { number, place } = *refused;
    let (front, there) = bytes.split_at(place);
    let child: &[u8] = if number == CHILD_CUT { &[0; 8] } else { &[] };
    let front = [front, child].concat();
    let is_there = is_what_is_written(&front) && stands(&front, there, number);
    assert!(is_there, "{refused:?} of {bytes:?}");
    let is_strict_only = [LONG_SIZE_SMALL, SEPARATOR_ZERO, BYTES_BEHIND].contains(&number);
    let is_both = lenient == Some(number);
    assert!(is_strict_only || is_both, "{refused:?} of {bytes:?}");
}

/// Whether the number says what stands behind the front.
fn stands(front: &[u8], there: &[u8], number: u8) -> bool {
    let before = read_node(front).map_or(0, |node| node.separators.len());
    match number {
        CHILD_CUT => there.len() < 8,
        BYTES_BEHIND => before == MOST_SEPARATORS && !there.is_empty(),
        _ => before < MOST_SEPARATORS && separator_stands(there, number),
    }
}

/// The same for a separator, by putting together what has to stand there. 12,
/// 13 and 14 are the original's, so only their kind of cut is looked at.
fn separator_stands(there: &[u8], number: u8) -> bool {
    let (is_long, head) = match there.get(8) {
        Some(0xFF) => (true, 13),
        _ => (false, 9),
    };
    if there.len() < head {
        return number == if is_long { SIZE_CUT } else { HEAD_CUT };
    }
    let value = number_in(&there[..8]);
    let length = number_in(if is_long { &there[9..13] } else { &there[8..9] });
    let Some(key) = there.get(head..head + length as usize) else {
        return number == KEY_CUT;
    };
    let mut sloppy = Vec::new();
    add_long_separator(&mut sloppy, key, value);
    let mut standard = Vec::new();
    add_separator(&mut standard, key, value);
    match number {
        LONG_SIZE_SMALL => there.starts_with(&sloppy) && sloppy != standard,
        SEPARATOR_ZERO => there.starts_with(&standard) && value == 0,
        KEY_TOO_LONG => there.starts_with(&standard) && value != 0 && key.len() > LONGEST_KEY,
        _ => false,
    }
}

fn number_in(bytes: &[u8]) -> u64 {
    let mut number = [0; 8];
    number[..bytes.len()].copy_from_slice(bytes);
    u64::from_le_bytes(number)
}
