//! The proved audit, as it is exported, beside our reading of 01. It needs the
//! archive of `tools/archive`.

use audit_bench::grown::{self, Filling, Shape};
use audit_bench::layout::{put_u32, HEADER, SLOT};
use audit_bench::random::Random;
use audit_bench::stores::{self, Case, MARK};
use audit_bench::{full, model};
use cikolaro::raw;

/// Both answers are the same; the number.
fn agrees(buffer: &[u8], words: usize) -> u32 {
    let before = vec![MARK; words];
    let mut marks = before.clone();
    let (number, reached) = raw::audit(buffer, &mut marks);
    let expected = model::audit(buffer, &before);
    assert_eq!(
        (number, reached as u64),
        (expected.number, expected.reached)
    );
    assert!(marks == expected.marks);
    number
}

fn good() -> Vec<Case> {
    let mut cases = stores::all();
    cases.retain(|case| case.expected().number == 0);
    cases
}

#[test]
fn stores_agree() {
    for case in stores::all() {
        agrees(&case.buffer, case.words);
    }
}

/// Each byte of a store of depth 1, changed to other bytes.
#[test]
fn each_byte_agrees() {
    let is_whole = |case: &Case| case.name.starts_with("depth 1, freed");
    let case = good().into_iter().find(is_whole).expect("it is there");
    let mut counts = [0; 9];
    let mut buffer = case.buffer;
    for at in 0..buffer.len() {
        let old = buffer[at];
        let all = [0, 1, old ^ 1, old ^ 0x80, old.wrapping_add(1), 255];
        for new in all.into_iter().filter(|new| *new != old) {
            buffer[at] = new;
            counts[agrees(&buffer, 1) as usize] += 1;
        }
        buffer[at] = old;
    }
    println!("0, 1, 8: {}, {}, {}", counts[0], counts[1], counts[8]);
}

/// One to three bytes changed, mostly where something stands.
#[test]
fn damaged_stores_agree() {
    let mut random = Random(7);
    let bases = good();
    let mut counts = [0; 9];
    for _ in 0..100_000 {
        let case = &bases[random.below(bases.len())];
        let mut buffer = case.buffer.clone();
        for _ in 0..=random.below(3) {
            let at = place(&buffer, &mut random);
            buffer[at] = change(buffer[at], &mut random);
        }
        counts[agrees(&buffer, case.words) as usize] += 1;
    }
    println!("0, 1, 8: {}, {}, {}", counts[0], counts[1], counts[8]);
}

/// In the header, or in the front of a slot, or anywhere.
fn place(buffer: &[u8], random: &mut Random) -> usize {
    let slot = HEADER + SLOT * random.below((buffer.len() - HEADER) / SLOT);
    match random.below(8) {
        0 => random.below(HEADER),
        1 => random.below(buffer.len()),
        _ => slot + random.below(120),
    }
}

fn change(old: u8, random: &mut Random) -> u8 {
    match random.below(4) {
        0 => old ^ 1 << random.below(8),
        1 => random.below(8) as u8,
        2 => old.wrapping_add(1),
        _ => random.below(256) as u8,
    }
}

/// What only a large buffer shows: the highest count, and one above it.
#[test]
fn counts_agree() {
    let words = 1024;
    let mut buffer = full::KINDS[3].store();
    assert_eq!(agrees(&buffer, words), 0);
    assert_eq!(agrees(&buffer, words - 1), 2);
    buffer.extend([0; SLOT]);
    put_u32(&mut buffer, 12, 65_536);
    assert_eq!(agrees(&buffer, words), 1);
}

/// The fewest nodes that depth 7 needs, 39,063; depth 8 would need 195,313.
#[test]
fn depth_7_agrees() {
    let mut below = Shape::Leaf(4);
    for _ in 0..6 {
        below = Shape::Inner(vec![below; 5]);
    }
    let filling = Filling {
        count: 39_064,
        slots: (1..=39_063).rev().collect(),
        key: |place| place.to_be_bytes()[5..].to_vec(),
    };
    let mut buffer = grown::store(&Shape::Inner(vec![below.clone(), below]), filling);
    assert_eq!(buffer[8], 7);
    assert_eq!(agrees(&buffer, 611), 0);
    buffer[8] = 8;
    assert_eq!(agrees(&buffer, 611), 8);
}
