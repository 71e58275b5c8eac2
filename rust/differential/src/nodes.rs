//! Node bytes, good and damaged, and nodes to be written, beside the original's reader and writer and our own reading of 01.

use cikolaro::raw::{self, LentNode};
use oracle::model::codec::{self, Reading};
use oracle::nodes::{any_node, bytes_of, damaged, node, Damage, Lengths, EDGES};
use oracle::random::Random;
use oracle::sloppy::any_flawed;
use original::btree::glue::{read_node, write_node, NodeParts};

use crate::{same, Compared, Counts};

pub fn case(random: &mut Random, counts: &mut Counts) -> Compared {
    for _ in 0..20 {
        let mut bytes = drawn(random);
        if let Err(told) = readings(&bytes, counts) {
            // The shortest front that still shows it.
            while !bytes.is_empty() && readings(&bytes[..bytes.len() - 1], &mut Counts::default()).is_err() {
                bytes.pop();
            }
            return Err(format!("{told}\n  node bytes {bytes:?}"));
        }
    }
    Ok(())
}

/// Node bytes, some with several flaws, some with nine children and something behind them.
fn drawn(random: &mut Random) -> Vec<u8> {
    if random.percent(25) {
        return any_flawed(random);
    }
    let is_full = random.percent(15);
    let node = if is_full { node(8, Lengths::EdgesAllowed, random) } else { any_node(8, Lengths::Edges, random) };
    match random.percent(30) {
        true => bytes_of(&node),
        false => damaged(&node, *random.pick(&Damage::ALL), random),
    }
}

fn readings(bytes: &[u8], counts: &mut Counts) -> Compared {
    lenient(bytes, counts)?;
    strict(bytes, counts)
}

fn lenient(bytes: &[u8], counts: &mut Counts) -> Compared {
    counts.node_readings += 1;
    let told = codec::read(bytes);
    let (number, count) = raw::node_read(bytes);
    let (children, pairs) = match &told {
        Err(refused) => {
            counts.node_refusals += 1;
            same("refused reading", (number, count), (u32::from(refused.number), 0))?;
            (Vec::new(), Vec::new())
        }
        Ok(read) => {
            same("reading", (number, count), (0, read.separators.len()))?;
            (read.children.clone(), pairs_of(bytes, read))
        }
    };
    for at in 0..12 {
        same("child", raw::node_child(bytes, at), children.get(at).copied().unwrap_or(0))?;
        let (key, value) = raw::node_separator(bytes, at);
        same("separator", (key.to_vec(), value), pairs.get(at).cloned().unwrap_or_default())?;
    }
    if let (Ok(_), Ok(theirs)) = (&told, read_node(bytes)) {
        same("the original's separators", pairs, theirs.separators)?;
        let mut nine = children;
        nine.resize(9, 0);
        same("the original's children", nine, theirs.children.to_vec())?;
    }
    Ok(())
}

/// The keys and values of bytes that were read.
pub fn pairs_of(bytes: &[u8], read: &Reading) -> Vec<(Vec<u8>, u64)> {
    read.separators.iter().map(|s| (bytes[s.key.clone()].to_vec(), s.value)).collect()
}

/// Whether bytes, read and written, are the same bytes.
fn is_standard(bytes: &[u8]) -> bool {
    codec::read(bytes).is_ok_and(|read| codec::write(&read.children, &pairs_of(bytes, &read)).as_deref() == Ok(bytes))
}

/// The strict reading: number, count, place and separators, and what it has to do with the lenient one.
fn strict(bytes: &[u8], counts: &mut Counts) -> Compared {
    counts.strict_readings += 1;
    let told = codec::read_strict(bytes);
    let answer = raw::node_read_strict(bytes);
    same("accepted is standard form", answer.0 == 0, is_standard(bytes))?;
    let pairs = match &told {
        Err(refused) => {
            counts.strict_refusals += 1;
            same("refused strict reading", answer, (u32::from(refused.number), 0, refused.place))?;
            refused_leniently(bytes, refused.number, counts)?;
            Vec::new()
        }
        Ok(read) => {
            same("strict reading", answer, (0, read.separators.len(), bytes.len()))?;
            let pairs = pairs_of(bytes, read);
            read_leniently(bytes, read, &pairs)?;
            pairs
        }
    };
    for at in 0..12 {
        let (key, value) = raw::node_separator_strict(bytes, at);
        same("strict separator", (key.to_vec(), value), pairs.get(at).cloned().unwrap_or_default())?;
    }
    Ok(())
}

/// Where the strict reading has an old number the lenient one has the same; it takes what is 19 or 20.
fn refused_leniently(bytes: &[u8], number: u8, counts: &mut Counts) -> Compared {
    if let Some(at) = number.checked_sub(18) {
        counts.refused_18_19_20[usize::from(at)] += 1;
    }
    let (lenient, _) = raw::node_read(bytes);
    match number {
        // What is wrong further behind may be refused leniently.
        18 => Ok(()),
        19 | 20 => same("taken leniently", lenient, 0),
        _ => same("refused by both readings", lenient, u32::from(number)),
    }
}

/// What the strict reading accepts the lenient one accepts as the same node.
fn read_leniently(bytes: &[u8], read: &Reading, pairs: &[(Vec<u8>, u64)]) -> Compared {
    same("accepted by both readings", raw::node_read(bytes), (0, pairs.len()))?;
    for (at, (key, value)) in pairs.iter().enumerate() {
        same("separator by both readings", raw::node_separator(bytes, at), (&key[..], *value))?;
    }
    for (at, child) in read.children.iter().enumerate() {
        same("child by both readings", raw::node_child(bytes, at), *child)?;
    }
    Ok(())
}

/// Nodes to be written, whatever their fields hold.
pub fn written(random: &mut Random, counts: &mut Counts) -> Compared {
    for _ in 0..20 {
        let node = lent(random);
        let told = told(&node);
        // Room that is enough, or just so, or too little, or any.
        let needed = told.as_ref().map_or(8, Vec::len);
        let room = *random.pick(&[needed, needed, needed + 1, needed - 1, needed + 100, 0, 2480, 2480]);
        let before = random.bytes(room);
        counts.node_writings += 1;
        let (number, bytes) = match &told {
            Ok(bytes) if bytes.len() <= room => (0, &bytes[..]),
            Ok(_) => (10, &[][..]),
            Err(number) => (u32::from(*number), &[][..]),
        };
        counts.writings_refused += usize::from(number != 0);
        let after = [bytes, &before[bytes.len()..]].concat();
        let mut destination = before;
        same("writing", raw::node_write(&node, &mut destination), (number, bytes.len()))
            .and_then(|()| same("the destination", destination, after))
            .map_err(|told| format!("{told}\n  node {node:?}, room {room}"))?;
        if let Ok(bytes) = &told {
            let theirs = NodeParts { children: node.children, separators: pairs(&node) };
            same("the original's bytes", write_node(&theirs).ok().as_ref(), Some(bytes))?;
        }
    }
    Ok(())
}

/// Numbers and bytes of all kinds; one node of three is good.
fn lent(random: &mut Random) -> LentNode {
    let mut node = LentNode { count: 0, children: [0; 9], values: [0; 8], lengths: [0; 8], keys: [0; 2304] };
    let flaw = random.below(9);
    let any = random.any() as usize;
    node.count = if flaw == 0 { *random.pick(&[9, 10, 17, any.max(9), usize::MAX]) } else { random.between(0, 8) };
    node.children.iter_mut().for_each(|child| *child = if random.percent(80) { random.any() } else { 0 });
    node.values.iter_mut().for_each(|value| *value = random.any() | 1);
    node.keys.copy_from_slice(&random.bytes(2304));
    for length in &mut node.lengths {
        *length = if random.percent(40) { *random.pick(&EDGES[..7]) } else { random.below(20) };
    }
    let at = random.below(8);
    if flaw <= 3 {
        node.values[at] = 0;
    }
    if flaw == 1 || flaw == 4 {
        let any = random.any() as usize;
        node.lengths[random.below(8)] = *random.pick(&[289, 290, 2304, any.max(289), usize::MAX]);
    }
    node
}

/// The separators that the fields name. A key that is over 288 bytes is only told to be so.
fn pairs(node: &LentNode) -> Vec<(Vec<u8>, u64)> {
    (0..node.count.min(9))
        .map(|at| match node.lengths.get(at) {
            Some(&length) if length <= 288 => (node.keys[288 * at..][..length].to_vec(), node.values[at]),
            _ => (vec![0; 289], node.values.get(at).copied().unwrap_or(0)),
        })
        .collect()
}

fn told(node: &LentNode) -> Result<Vec<u8>, u8> {
    codec::write(&node.children, &pairs(node))
}
