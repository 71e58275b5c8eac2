//! Random histories beside Rust's own map, and refusals that leave every byte as it was.

use std::collections::BTreeMap;

use cikolaro::{Batch, Cursor, Place, Refusal, Store};

struct Random(u64);

impl Random {
    fn below(&mut self, n: u64) -> u64 {
        self.0 = self.0.wrapping_add(0x9e37_79b9_7f4a_7c15);
        let mut z = self.0;
        z = (z ^ z >> 30).wrapping_mul(0xbf58_476d_1ce4_e5b9);
        z = (z ^ z >> 27).wrapping_mul(0x94d0_49bb_1331_11eb);
        (z ^ z >> 31) % n
    }

    fn key(&mut self, width: u64) -> Vec<u8> {
        let length = if self.below(20) == 0 { self.below(289) } else { self.below(4) };
        (0..length).map(|_| self.below(width) as u8).collect()
    }
}

fn entries(store: &Store<Vec<u8>>) -> Vec<(Vec<u8>, u64)> {
    store.entries().map(|e| e.unwrap()).map(|e| (e.key().to_vec(), e.value)).collect()
}

fn change(random: &mut Random, map: &mut BTreeMap<Vec<u8>, u64>, width: u64) -> Batch {
    let mut batch = Batch::new();
    for _ in 0..random.below(60) {
        let key = random.key(width);
        if random.below(5) < 3 {
            let value = 1 + random.below(1 << 40);
            map.insert(key.clone(), value);
            batch.set(key, value);
        } else {
            map.remove(&key);
            batch.remove(key);
        }
    }
    batch
}

fn compare(random: &mut Random, store: &Store<Vec<u8>>, map: &BTreeMap<Vec<u8>, u64>, width: u64) {
    assert_eq!(entries(store), map.clone().into_iter().collect::<Vec<_>>());
    let back: Vec<_> = store.entries_back().map(|e| e.unwrap().value).collect();
    assert_eq!(back, map.values().rev().copied().collect::<Vec<_>>());
    for _ in 0..10 {
        let key = random.key(width);
        assert_eq!(store.get(&key), Ok(map.get(&key).copied()));
        let mut cursor = Cursor::seek(&key).unwrap();
        assert_eq!(cursor.place(), Place::Seeked(&key));
        let next = cursor.next(store).unwrap().map(|e| e.value);
        assert_eq!(next, map.range(key.clone()..).next().map(|(_, v)| *v));
        cursor.move_to(&key).unwrap();
        let prev = cursor.prev(store).unwrap().map(|e| e.value);
        assert_eq!(prev, map.range(..=key).next_back().map(|(_, v)| *v));
    }
}

#[test]
fn histories_are_those_of_a_map() {
    let mut random = Random(1);
    for width in [2, 4, 16, 256] {
        for _ in 0..25 {
            let mut store = Store::new(400).unwrap();
            let mut map = BTreeMap::new();
            for _ in 0..12 {
                let batch = change(&mut random, &mut map, width);
                assert_eq!(store.apply(&batch), Ok(batch.len()));
                compare(&mut random, &store, &map, width);
                store.audit().unwrap();
            }
        }
    }
}

#[test]
fn refusals_leave_the_store() {
    let mut store = Store::new(3).unwrap();
    store.apply(Batch::new().set(b"a", 1)).unwrap();
    let before = store.bytes().to_vec();
    let cases: [(&[u8], Refusal); 6] = [
        (&[1, 0, 0], Refusal::Short),
        (&[3, 0, 0, 1, 0, 0, 0, 0, 0, 0, 0], Refusal::Short),
        (&[1, 33, 1, 1, 0, 0, 0, 0, 0, 0, 0], Refusal::LongKey),
        (&[1, 0, 0, 0, 0, 0, 0, 0, 0, 0, 0], Refusal::BadValue),
        (&[2, 0, 0, 1, 0, 0, 0, 0, 0, 0, 0], Refusal::BadValue),
        (&[2, 1, 0, 0, 0, 0, 0, 0, 0, 0, 0, 9, 2, 0, 0, 0, 0, 0, 0, 0, 0, 0, 0], Refusal::Falls),
    ];
    for (records, refusal) in cases {
        let error = store.apply_records(records).unwrap_err();
        assert_eq!((error.refusal, error.applied), (refusal, 0));
        assert_eq!(store.bytes(), before);
    }
    let mut many = Batch::new();
    for _ in 0..65_535 {
        many.remove(b"z");
    }
    assert_eq!(store.apply(&many), Ok(65_535));
    many.remove(b"z");
    assert_eq!(store.apply(&many).unwrap_err().refusal, Refusal::TooMany);
    assert_eq!(store.bytes(), before);
}

#[test]
fn what_is_no_store_is_refused() {
    for count in [0, 65_536, u32::MAX] {
        assert_eq!(Store::new(count).unwrap_err(), Refusal::NotStore);
    }
    for bytes in [vec![], vec![0; 23], vec![0; 24], vec![0; 24 + 2560]] {
        let mut store = Store::unaudited(bytes);
        assert_eq!(store.audit().unwrap_err(), Refusal::NotStore);
        assert_eq!(store.get(b"").unwrap_err(), Refusal::NotStore);
        assert_eq!(store.apply(&Batch::new()).unwrap_err().refusal, Refusal::NotStore);
        assert_eq!(store.entries().next(), Some(Err(Refusal::NotStore)));
    }
}

#[test]
fn a_refused_cursor_stays() {
    let mut cursor = Cursor::seek(b"key").unwrap();
    let before = cursor.clone();
    assert_eq!(cursor.move_to(&[0; 289]).unwrap_err(), Refusal::LongKey);
    assert!(cursor == before);
    let broken = Store::unaudited(vec![0; 100]);
    assert_eq!(cursor.next(&broken).unwrap_err(), Refusal::NotStore);
    assert_eq!(cursor.prev(&broken).unwrap_err(), Refusal::NotStore);
    assert!(cursor == before);
}

#[test]
fn the_cursor_turns_at_both_ends() {
    let mut store = Store::new(1).unwrap();
    store.apply(Batch::new().set(b"", 1).set(b"b", 2)).unwrap();
    let mut cursor = Cursor::start();
    assert_eq!(cursor.prev(&store), Ok(None));
    assert_eq!(cursor.next(&store).unwrap().unwrap().key(), b"");
    assert_eq!(cursor.prev(&store), Ok(None));
    assert_eq!(cursor.place(), Place::Start);
    cursor = Cursor::end();
    assert_eq!(cursor.next(&store), Ok(None));
    assert_eq!(cursor.prev(&store).unwrap().unwrap().value, 2);
    assert_eq!(cursor.place(), Place::At(b"b"));
    assert_eq!(cursor.next(&store), Ok(None));
    assert_eq!(cursor.place(), Place::End);
}

#[test]
fn a_borrowed_buffer_is_changed_in_place() {
    let mut buffer = vec![7; cikolaro::store_size(2)];
    {
        let mut store = Store::format(&mut buffer[..], 2).unwrap();
        store.apply(Batch::new().set(b"x", 9)).unwrap();
    }
    assert_eq!(Store::open(&buffer[..]).unwrap().get(b"x"), Ok(Some(9)));
    assert_eq!(Store::format(&mut buffer[1..], 2).unwrap_err(), Refusal::NotStore);
    assert_eq!(Store::open(&buffer[..]).unwrap().get(b"x"), Ok(Some(9)));
}
