//! Stores with nodes that only the lenient reading takes.

use cikolaro::LONGEST_NODE;
use oracle::model::buffer;
use oracle::model::bytes::Bytes;
use oracle::model::codec::{self, Reading};
use oracle::random::Random;
use oracle::sloppy::{add_behind, Flaw};

use crate::damage::Edit;
use crate::nodes::pairs_of;

/// A slot's node made one that only the lenient reading takes; none for a free slot, and where there is no room for it.
pub fn edit(good: &[u8], start: usize, random: &mut Random) -> Option<Edit> {
    let length = u32::from_le_bytes(good[start..start + 4].try_into().expect("four bytes")) as usize;
    let bytes = &good[start + 4..start + 4 + length];
    let read = codec::read(bytes).ok()?;
    let is_full = read.separators.len() == codec::MOST_SEPARATORS;
    let node = match random.below(3) {
        0 => with_long_size(bytes, &read, random)?,
        _ => with_more(bytes, is_full, random),
    };
    (node.len() <= LONGEST_NODE).then(|| (start, [&(node.len() as u32).to_le_bytes()[..], &node].concat()))
}

/// 18: one of the short keys has its length behind 0xFF.
fn with_long_size(bytes: &[u8], read: &Reading, random: &mut Random) -> Option<Vec<u8>> {
    let short: Vec<usize> = read.separators.iter().filter(|s| s.key.len() < 255).map(|s| s.key.start).collect();
    if short.is_empty() {
        return None;
    }
    let key = *random.pick(&short);
    Some([&bytes[..key - 1], &[0xFF, bytes[key - 1], 0, 0, 0], &bytes[key..]].concat())
}

/// 20 behind a ninth child; else 19, a separator of value 0, now and then with bytes behind it.
fn with_more(bytes: &[u8], is_full: bool, random: &mut Random) -> Vec<u8> {
    let mut node = bytes.to_vec();
    if !is_full {
        Flaw::Zero.add(&mut node, random);
    }
    if is_full || random.percent(50) {
        add_behind(&mut node, random);
    }
    node
}

/// The store as a lenient walk meets it: each node that only such a reading takes in standard form. None where there is no such node.
pub fn lenient(store: &[u8]) -> Option<Bytes> {
    let mut store = buffer::store(store).ok()?;
    let mut is_sloppy = false;
    for bytes in store.nodes.values_mut().filter(|bytes| bytes.len() <= LONGEST_NODE) {
        if let (Ok(read), Err(_)) = (codec::read(bytes), codec::read_strict(bytes)) {
            *bytes = codec::write(&read.children, &pairs_of(bytes, &read)).expect("what is read can be written");
            is_sloppy = true;
        }
    }
    is_sloppy.then_some(store)
}

/// Whether a lenient walk would answer otherwise.
pub fn differs<T: PartialEq>(store: &[u8], lenient: &Option<Bytes>, ask: impl Fn(&Bytes) -> Result<T, u8>) -> bool {
    lenient.as_ref().is_some_and(|lenient| buffer::store(store).and_then(|store| ask(&store)) != ask(lenient))
}
