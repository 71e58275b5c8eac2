//! Record buffers of all kinds, good and bad, and the refusals that come before the run.

use cikolaro::raw;
use oracle::random::Random;
use original::btree::glue::Change;

use crate::shrink::shrunk;
use crate::{same, Compared, Counts};

/// A batch's records as 01 has them.
pub fn encoded(records: &[Change]) -> Vec<u8> {
    let mut bytes = Vec::new();
    for record in records {
        let (kind, value) = match record {
            Change::Set(_, value) => (1, *value),
            Change::Dereference(_) => (2, 0),
        };
        bytes.push(kind);
        bytes.extend((record.key().len() as u16).to_le_bytes());
        bytes.extend(value.to_le_bytes());
        bytes.extend(record.key());
    }
    bytes
}

/// "records from the front (7, 3 for under 11 bytes or kind, 4, 5, 3 for a short key, 6)"; 0 where there is no refusal.
pub fn refusal(records: &[u8]) -> u32 {
    let (mut rest, mut before, mut seen): (&[u8], &[u8], usize) = (records, &[], 0);
    while !rest.is_empty() {
        if seen == 65_535 {
            return 7;
        }
        if rest.len() < 11 || !(1..=2).contains(&rest[0]) {
            return 3;
        }
        let length = usize::from(u16::from_le_bytes([rest[1], rest[2]]));
        let has_value = rest[3..11].iter().any(|b| *b != 0);
        if length > 288 {
            return 4;
        }
        if has_value != (rest[0] == 1) {
            return 5;
        }
        let Some(key) = rest[11..].get(..length) else { return 3 };
        if key < before {
            return 6;
        }
        (before, rest, seen) = (key, &rest[11 + length..], seen + 1);
    }
    0
}

pub fn case(random: &mut Random, counts: &mut Counts) -> Compared {
    let count = random.between(1, 130) as u32;
    let mut store = vec![0; cikolaro::store_size(count)];
    assert_eq!(raw::format(&mut store, count), 0);
    for _ in 0..10 {
        let pieces = pieces(random);
        let words = random.between(0, 4);
        let seed = random.any();
        if let Err(told) = check(&store, words, &pieces, seed) {
            let fails = |p: &[Vec<u8>]| check(&store, words, p, seed).is_err();
            return Err(format!("{told}\n  slots {count}, mark words {words}, records {:?}", shrunk(pieces, &fails)));
        }
        counts.refused_batches += usize::from(refusal(&pieces.concat()) != 0);
    }
    Ok(())
}

/// Records, some of them bad.
fn pieces(random: &mut Random) -> Vec<Vec<u8>> {
    let mut keys: Vec<Vec<u8>> = (0..random.between(0, 12))
        .map(|_| {
            let n = random.below(3);
            random.bytes(n)
        })
        .collect();
    keys.sort();
    let damage = random.below(keys.len().max(1) * 2);
    let many = random.below(400) == 0;
    let mut pieces: Vec<Vec<u8>> =
        keys.into_iter().enumerate().map(|(at, key)| piece(key, at == damage, random)).collect();
    if many {
        let last = piece(vec![255; 3], false, random);
        pieces.resize(65_534 + random.below(3), last);
    }
    pieces
}

fn piece(mut key: Vec<u8>, is_bad: bool, random: &mut Random) -> Vec<u8> {
    let bad = if is_bad { random.below(7) } else { 9 };
    if bad == 0 {
        key = random.bytes(289);
    }
    if bad == 1 {
        key = Vec::new();
    }
    let set = random.percent(60);
    let zero = set == (bad == 2);
    let record = match set {
        true => Change::Set(key, if zero { 0 } else { random.any() | 1 }),
        false => Change::Dereference(key),
    };
    let mut bytes = encoded(&[record]);
    match bad {
        2 if !set => bytes[3 + random.below(8)] = 1,
        3 => bytes[0] = random.between(3, 255) as u8,
        4 => bytes[0] = 0,
        5 => bytes.truncate(random.below(bytes.len())),
        6 => bytes[1] = bytes[1].wrapping_add(1),
        _ => (),
    }
    bytes
}

fn check(store: &[u8], words: usize, pieces: &[Vec<u8>], seed: u64) -> Compared {
    let mut random = Random::new(seed);
    let records = pieces.concat();
    let mut after = store.to_vec();
    let before: Vec<u64> = (0..words).map(|_| random.any()).collect();
    let mut marks = before.clone();
    let (number, applied) = raw::batch(&mut after, &mut marks, &records);
    let count = (store.len() - 24) / 2560;
    let told = if words < count.div_ceil(64) { 2 } else { refusal(&records) };
    if told == 0 {
        // The run has its own part; here it must not be refused before it.
        return same("a batch of good records is run", number == 0 || number == 9, true);
    }
    same("number and applied", (number, applied), (told, 0))?;
    same("the store stays", after == store, true)?;
    same("the marks stay", marks, before)
}
