//! The work: keys, batches and questions, all made before any time is taken.

use audit_bench::random::Random;
use cikolaro::LONGEST_KEY;

pub const SLOTS: u32 = 15_000;
pub const LOADED: u64 = 50_000;
pub const LOADING_BATCHES: u64 = 5;
pub const BATCH: u64 = 10_000;
pub const LOOKUPS: usize = 200_000;

pub type Key = [u8; 24];
pub type LongKey = [u8; LONGEST_KEY];
pub type KeyOf<K = Key> = fn(u64) -> K;

/// 16 bytes that all keys share, and then a number whose order is the bytes' order.
pub fn behind_prefix(number: u64) -> Key {
    let mut key = *b"a/shared/prefix/--------";
    key[16..].copy_from_slice(&number.to_be_bytes());
    key
}

/// The number first, shifted so that neighbours differ in the first bytes.
pub fn number_first(number: u64) -> Key {
    let mut key = *b"--------/and/some/more/-";
    key[..8].copy_from_slice(&(number << 40).to_be_bytes());
    key
}

/// As long as a key can be, and 250 bytes of it shared. The number is shifted, so that no more are.
pub fn long_behind_prefix(number: u64) -> LongKey {
    let mut key = [b'k'; LONGEST_KEY];
    key[250..258].copy_from_slice(&(number << 40).to_be_bytes());
    key
}

/// Every fifth key of the loaded ones, or one beside it.
pub fn over_all(plus: u64) -> impl Iterator<Item = u64> {
    (0..BATCH).map(move |i| 10 * LOADED / BATCH * i + plus)
}

pub fn behind_all() -> impl Iterator<Item = u64> {
    (0..BATCH).map(|i| 10 * (LOADED + i))
}

/// Sets (with a value) and dereferences of rising keys, and the same as 01's records.
pub struct Batch<K = Key> {
    pub changes: Vec<(K, Option<u64>)>,
    pub records: Vec<u8>,
}

impl<K: AsRef<[u8]>> Batch<K> {
    fn new(changes: Vec<(K, Option<u64>)>) -> Self {
        let mut records = Vec::new();
        for (key, value) in &changes {
            let key = key.as_ref();
            records.push(if value.is_some() { 1 } else { 2 });
            records.extend((key.len() as u16).to_le_bytes());
            records.extend(value.unwrap_or(0).to_le_bytes());
            records.extend(key);
        }
        Batch { changes, records }
    }

    /// Sets; the value is the number, and `plus` tells new values from old ones.
    pub fn sets(key: KeyOf<K>, plus: u64, numbers: impl Iterator<Item = u64>) -> Self {
        Batch::new(numbers.map(|number| (key(number), Some(number + plus))).collect())
    }

    pub fn dereferences(key: KeyOf<K>, numbers: impl Iterator<Item = u64>) -> Self {
        Batch::new(numbers.map(|number| (key(number), None)).collect())
    }
}

/// Keys with the numbers 0, 10, 20 and so on, in batches that each go over the whole range: so nodes fill as by keys in no order.
pub fn load<K: AsRef<[u8]>>(key: KeyOf<K>, keys: u64, batches: u64) -> Vec<Batch<K>> {
    let mut parts: Vec<u64> = (0..batches).collect();
    shuffle(&mut parts, &mut Random(5));
    let numbers = |part| (0..keys).filter(move |i| i % batches == part).map(|i| 10 * i);
    parts.into_iter().map(|part| Batch::sets(key, 1, numbers(part))).collect()
}

/// Keys in no order, every second one present in a tree of so many loaded keys.
pub fn questions(key: KeyOf, loaded: u64, count: usize) -> Vec<Key> {
    let mut random = Random(11);
    let mut keys: Vec<Key> = (0..count)
        .map(|i| {
            let number = 10 * random.below(loaded as usize) as u64;
            key(if i % 2 == 0 { number } else { number + 5 })
        })
        .collect();
    shuffle(&mut keys, &mut random);
    keys
}

fn shuffle<T>(all: &mut [T], random: &mut Random) {
    for i in (1..all.len()).rev() {
        all.swap(i, random.below(i + 1));
    }
}
