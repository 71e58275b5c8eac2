//! The twin does what the proved library does: random histories, batches that are refused or run out of room, damaged stores, cursors in
//! both directions; every answer, every byte of the store and every mark word.

use audit_bench::random::Random;
use cikolaro::raw;
use compare::twin::layout::{mark_words, size_of_store};
use compare::twin::walk::{self, Cursor, Place};
use compare::twin::{audit, batch, codec, format, Answer};

/// Few keys of few lengths, so that batches meet keys that are there; some are long.
fn key(random: &mut Random, keys: usize) -> Vec<u8> {
    let number = random.below(keys);
    let len = [2, 3, 24, 254, 255, 288][number % 6];
    let mut key = vec![b'k'; len];
    key[len - 2..].copy_from_slice(&(number as u16).to_be_bytes());
    if number.is_multiple_of(7) {
        key.rotate_right(2);
    }
    key
}

fn records(random: &mut Random, keys: usize) -> Vec<u8> {
    let sets = random.below(4);
    let mut all: Vec<Vec<u8>> = (0..random.below(60)).map(|_| key(random, keys)).collect();
    all.sort();
    let mut records = Vec::new();
    for key in all {
        let is_set = random.below(4) < sets;
        records.push(if is_set { 1 } else { 2 });
        records.extend((key.len() as u16).to_le_bytes());
        records.extend(if is_set { 1 + random.below(1000) as u64 } else { 0 }.to_le_bytes());
        records.extend(key);
    }
    records
}

struct Both {
    proved: Vec<u8>,
    twin: Vec<u8>,
    marks: Vec<u64>,
    twin_marks: Vec<u64>,
    resumes: bool,
}

impl Both {
    fn new(slots: u32) -> Both {
        let mut proved = vec![1; size_of_store(slots)];
        let mut twin = vec![2; size_of_store(slots)];
        assert_eq!(raw::format(&mut proved, slots), 0);
        assert_eq!(format(&mut twin, slots), Ok(()));
        let marks = vec![7; mark_words(slots)];
        Both { proved, twin, twin_marks: marks.clone(), marks, resumes: false }
    }

    fn batch(&mut self, records: &[u8]) -> u32 {
        let proved = raw::batch(&mut self.proved, &mut self.marks, records);
        // Both forms of the twin take turns.
        self.resumes = !self.resumes;
        let twin = batch::batch(&mut self.twin, &mut self.twin_marks, records, self.resumes);
        assert_eq!(proved, twin);
        self.same();
        proved.0
    }

    fn audit(&mut self) -> u32 {
        let proved = raw::audit(&self.proved, &mut self.marks);
        let twin = audit::audit(&self.twin, &mut self.twin_marks);
        assert_eq!(proved, twin.map_or_else(|number| (number, 0), |reached| (0, reached)));
        self.same();
        proved.0
    }

    fn same(&self) {
        assert!(self.proved == self.twin, "the bytes of the stores differ");
        assert!(self.marks == self.twin_marks, "the marks differ");
    }

    fn lookup(&self, key: &[u8]) {
        let proved = raw::lookup(&self.proved, key);
        assert_eq!((proved.number, proved.value), told(walk::lookup(&self.twin, key)));
    }

    /// Steps from any place, in any direction.
    fn walk(&self, random: &mut Random, keys: usize) {
        let (mut lent, mut cursor) = places(random, keys);
        for _ in 0..random.below(30) {
            let (proved, twin) = if random.below(2) == 0 {
                (raw::forward(&self.proved, &mut lent), walk::forward(&self.twin, &mut cursor))
            } else {
                (raw::backward(&self.proved, &mut lent), walk::backward(&self.twin, &mut cursor))
            };
            assert_eq!((proved.number, proved.value), told(twin));
            assert_eq!((lent.kind, lent.length), kind_and_length(cursor.place));
            assert!(lent.key == cursor.key);
        }
    }
}

fn told(answer: Answer<Option<u64>>) -> (u32, Option<u64>) {
    answer.map_or_else(|number| (number, None), |value| (0, value))
}

fn kind_and_length(place: Place) -> (u32, usize) {
    match place {
        Place::Start => (0, 0),
        Place::End => (1, 0),
        Place::At(length) => (2, length),
        Place::Seeked(length) => (3, length),
    }
}

/// The same place for both.
fn places(random: &mut Random, keys: usize) -> (raw::Lent, Cursor) {
    let mut cursor = Cursor::START;
    cursor.place = [Place::Start, Place::End][random.below(2)];
    let (kind, length) = kind_and_length(cursor.place);
    let mut lent = raw::Lent { kind, length, key: cursor.key };
    if random.below(2) == 0 {
        let key = key(random, keys);
        assert_eq!(raw::seek(&key, &mut lent), 0);
        cursor.key = lent.key;
        cursor.place = Place::Seeked(key.len());
    }
    (lent, cursor)
}

#[test]
fn histories_agree() {
    let mut random = Random(1);
    let (mut numbers, mut deepest) = ([0; 10], 0);
    for _ in 0..3_000 {
        let slots = 1 + random.below(80) as u32;
        let keys = 10 + random.below(300);
        let mut both = Both::new(slots);
        for _ in 0..random.below(30) {
            let records = records(&mut random, keys);
            numbers[both.batch(&records) as usize] += 1;
            deepest = deepest.max(both.proved[8]);
        }
        assert_eq!(both.audit(), 0);
        (0..20).for_each(|_| both.lookup(&key(&mut random, keys)));
        both.walk(&mut random, keys);
    }
    println!("numbers {numbers:?}, depth up to {deepest}");
    assert!(numbers[0] > 0 && numbers[9] > 0 && deepest >= 2);
}

/// A byte or two changed: most of these are refused.
#[test]
fn damaged_stores_and_records_agree() {
    let mut random = Random(2);
    let mut numbers = [0; 10];
    for _ in 0..20_000 {
        let mut both = Both::new(1 + random.below(12) as u32);
        let keys = 60;
        (0..3).for_each(|_| _ = both.batch(&records(&mut random, keys)));
        let mut records = records(&mut random, keys);
        damage(&mut records, &mut random);
        if random.below(3) > 0 {
            damage(&mut both.proved, &mut random);
            both.twin.copy_from_slice(&both.proved);
        }
        (0..5).for_each(|_| both.lookup(&key(&mut random, keys)));
        both.walk(&mut random, keys);
        both.audit();
        numbers[both.batch(&records) as usize] += 1;
    }
    println!("numbers {numbers:?}");
    assert!([0, 1, 3, 4, 5, 6, 8, 9].iter().all(|number| numbers[*number] > 0));
}

fn damage(bytes: &mut [u8], random: &mut Random) {
    if bytes.is_empty() {
        return;
    }
    let front = random.below(2) == 0;
    let at = random.below(if front { bytes.len().min(200) } else { bytes.len() });
    bytes[at] = [0, 1, 2, 255, bytes[at] ^ 4, bytes[at].wrapping_add(1)][random.below(6)];
}

#[test]
fn nodes_are_read_alike() {
    let mut random = Random(3);
    for _ in 0..200_000 {
        let bytes: Vec<u8> = (0..random.below(60)).map(|_| [0, 0, 1, 2, 255][random.below(5)]).collect();
        let twin = codec::read(&bytes).map_or_else(|number| (number, 0), |places| (0, places.count));
        assert_eq!(raw::node_read(&bytes), twin);
    }
}
