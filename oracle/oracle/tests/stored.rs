//! The stored lists: they are what the generator makes, and replaying them as
//! FORMATS.md tells, on our reading of 01, gives the stored answers.

use oracle::lists;
use oracle::model::buffer;
use oracle::model::bytes::{Bytes, Way};
use oracle::model::codec;
use oracle::model::cursor::{Cursor, Place};
use oracle::model::store::{Answer, Store};
use oracle::report::report;
use oracle::shape;
use oracle::small;
use original::btree::glue::{Change, Pair};
use std::collections::{BTreeMap, BTreeSet};

#[test]
fn stored_files_are_what_the_generator_makes() {
    for list in lists::all() {
        assert!(
            stored(list.file) == list.bytes,
            "{}: stored and made differ",
            list.file
        );
        report(list.file, &[("cases", list.cases)]);
    }
    let text = std::fs::read_to_string(small::FILE).expect("the histories are stored");
    assert!(text == small::text(), "histories: stored and made differ");
}

fn stored(file: &str) -> Vec<u8> {
    std::fs::read(lists::stored_at(file)).expect("the list is stored")
}

/// Takes numbers and parts off the front.
struct Front<'a>(&'a [u8]);

impl<'a> Front<'a> {
    fn take(&mut self, count: usize) -> &'a [u8] {
        let (front, rest) = self.0.split_at(count);
        self.0 = rest;
        front
    }

    fn number(&mut self, bytes: usize) -> u64 {
        let mut number = [0; 8];
        number[..bytes].copy_from_slice(self.take(bytes));
        u64::from_le_bytes(number)
    }

    fn byte(&mut self) -> usize {
        self.number(1) as usize
    }

    fn short(&mut self) -> usize {
        self.number(2) as usize
    }

    fn word(&mut self) -> usize {
        self.number(4) as usize
    }

    fn long(&mut self) -> u64 {
        self.number(8)
    }

    fn part(&mut self) -> &'a [u8] {
        let length = self.short();
        self.take(length)
    }

    fn pair(&mut self) -> Pair {
        let key = self.part().to_vec();
        (key, self.long())
    }

    fn end(&self) {
        assert!(self.0.is_empty(), "bytes are left in a block");
    }
}

/// The blocks of a file.
fn blocks(file: &[u8]) -> Vec<Front<'_>> {
    let mut front = Front(file);
    let count = front.word();
    let mut block = |_| {
        let length = front.word();
        Front(front.take(length))
    };
    let blocks = (0..count).map(&mut block).collect();
    front.end();
    blocks
}

#[test]
fn node_readings_replay() {
    let file = stored("node_readings.bin");
    let mut lenient = Numbers::new();
    let mut strict = Numbers::new();
    let mut places = Places::new();
    for mut block in blocks(&file) {
        let input = block.part();
        let number = block.byte();
        *lenient.entry(number).or_default() += 1;
        match codec::read(input) {
            Err(refused) => assert_eq!(usize::from(refused.number), number),
            Ok(node) => {
                assert_eq!(number, 0);
                check_node(&mut block, &node);
            }
        }
        let number = check_strict(&mut block, input, &mut places);
        *strict.entry(number).or_default() += 1;
        block.end();
    }
    assert!(lenient.values().sum::<usize>() >= 20_000);
    for at in 0..8 {
        assert!(places[&(18, at)] >= 30 && places[&(19, at)] >= 30);
    }
    assert!(places[&(20, 8)] >= 300);
    tell("node_readings_replay, lenient", &lenient);
    tell("node_readings_replay, strict", &strict);
}

/// How often a number was met.
type Numbers = BTreeMap<usize, usize>;

/// The same, by number and by how many separators stand before the place.
type Places = BTreeMap<(usize, usize), usize>;

fn tell(test: &str, numbers: &Numbers) {
    let counts: Vec<_> = numbers
        .iter()
        .map(|(n, count)| (format!("answered {n}"), *count))
        .collect();
    let counts: Vec<_> = counts.iter().map(|(w, n)| (w.as_str(), *n)).collect();
    report(test, &counts);
}

/// The strict answer's number.
fn check_strict(block: &mut Front, input: &[u8], places: &mut Places) -> usize {
    let number = block.byte();
    let place = block.short();
    match codec::read_strict(input) {
        Err(refused) => {
            let told = (usize::from(refused.number), refused.place);
            assert_eq!(told, (number, place));
        }
        Ok(_) => assert_eq!((number, place), (0, input.len())),
    }
    let before = codec::read_strict(&input[..place]).map_or(0, |node| node.separators.len());
    *places.entry((number, before)).or_default() += 1;
    number
}

fn check_node(block: &mut Front, node: &codec::Reading) {
    assert_eq!(block.byte(), node.separators.len());
    assert_eq!(node.children.len(), node.separators.len() + 1);
    for child in &node.children {
        assert_eq!(block.long(), *child);
    }
    for separator in &node.separators {
        assert_eq!(block.long(), separator.value);
        assert_eq!(block.short(), separator.key.start);
        assert_eq!(block.short(), separator.key.len());
    }
}

#[test]
fn node_writings_replay() {
    let file = stored("node_writings.bin");
    let mut dropping = 0;
    let blocks = blocks(&file);
    let count = blocks.len();
    for mut block in blocks {
        let separators = block.byte();
        let given = block.byte();
        let children: Vec<u64> = (0..given).map(|_| block.long()).collect();
        let pairs: Vec<Pair> = (0..separators)
            .map(|_| {
                let value = block.long();
                (block.part().to_vec(), value)
            })
            .collect();
        assert_eq!(codec::write(&children, &pairs), Ok(block.part().to_vec()));
        block.end();
        dropping += usize::from(given > separators + 1);
    }
    assert!(count >= 5_000 && dropping > 100);
    report(
        "node_writings_replay",
        &[("nodes", count), ("of them dropping children", dropping)],
    );
}

#[test]
fn walks_replay() {
    let file = stored(lists::walks::FILE);
    let blocks = blocks(&file);
    let stores = blocks.len();
    let mut numbers = [0; 9];
    let mut sloppy = 0;
    let mut at_depth_1 = BTreeSet::new();
    for mut block in blocks {
        let mut buffer = vec![0; block.word()];
        for _ in 0..block.short() {
            let at = block.word();
            let bytes = block.part();
            buffer[at..at + bytes.len()].copy_from_slice(bytes);
        }
        ask_all(&mut block, &buffer, &mut numbers);
        block.end();
        if let Ok(store) = buffer::store(&buffer) {
            let nodes = sloppy_nodes(&store);
            sloppy += usize::from(!nodes.is_empty());
            at_depth_1.extend(nodes.into_iter().filter(|_| store.depth == 1));
        }
    }
    let kinds = [18, 19, 20].map(|number| [(number, false), (number, true)]);
    assert_eq!(at_depth_1, kinds.into_iter().flatten().collect());
    report(
        "walks_replay",
        &[
            ("stores", stores),
            ("of them with sloppy nodes", sloppy),
            ("questions", numbers.iter().sum()),
            ("answers 1", numbers[1]),
            ("answers 4", numbers[4]),
            ("answers 8", numbers[8]),
        ],
    );
}

/// The numbers for nodes that the lenient reading alone reads, and whether
/// each is the root.
fn sloppy_nodes(store: &Bytes) -> Vec<(u8, bool)> {
    let has_length = |bytes: &[u8]| (8..=2480).contains(&bytes.len());
    let nodes = store.nodes.iter().filter(|(_, bytes)| has_length(bytes));
    let sloppy = nodes.filter_map(|(slot, bytes)| {
        codec::read(bytes).ok()?;
        let refused = codec::read_strict(bytes).err()?;
        Some((refused.number, *slot == store.root))
    });
    sloppy.collect()
}

fn ask_all(block: &mut Front, buffer: &[u8], numbers: &mut [usize; 9]) {
    let store = buffer::store(buffer);
    let mut place = Place::Start;
    for _ in 0..block.short() {
        let question = block.byte();
        let number = block.byte();
        let value = block.long();
        let key = block.part();
        numbers[if question == 1 { 0 } else { number }] += 1;
        match question {
            0 => {
                let found = store.as_ref().map_err(|n| *n).and_then(|s| s.lookup(key));
                let told = answered(number, (value != 0).then_some(value));
                assert_eq!(found, told);
            }
            1 => place = put(number, value, key),
            2 if number == 0 => place = Place::Seeked(key.to_vec()),
            2 => assert!(number == 4 && key.len() > codec::LONGEST_KEY),
            _ => {
                let told = (value != 0).then(|| (key.to_vec(), value));
                let told = answered(number, told);
                assert_eq!(step(&store, &mut place, question == 3), told);
            }
        }
    }
}

fn answered<T>(number: usize, found: Option<T>) -> Result<Option<T>, u8> {
    if number == 0 {
        Ok(found)
    } else {
        Err(number as u8)
    }
}

/// A place as the list has it: marks stand behind the key.
fn put(kind: usize, length: u64, key: &[u8]) -> Place {
    let mut array = key.to_vec();
    array.resize(codec::LONGEST_KEY + 1, lists::walks::MARK);
    array.truncate(length.min(array.len() as u64) as usize);
    match kind {
        0 => Place::Start,
        1 => Place::End,
        2 => Place::At(array),
        _ => Place::Seeked(array),
    }
}

fn step(store: &Result<Bytes, u8>, place: &mut Place, ahead: bool) -> Result<Option<Pair>, u8> {
    let (way, ends) = match ahead {
        true => (Way::Forward, Place::End),
        false => (Way::Backward, Place::Start),
    };
    let found = store.as_ref().map_err(|n| *n)?.walk(place, way)?;
    *place = found
        .as_ref()
        .map_or(ends, |(key, _)| Place::At(key.clone()));
    Ok(found)
}

#[test]
fn small_histories_replay() {
    let histories = small::histories();
    for small in &histories {
        let mut store = Store::format(small.slots);
        for batch in &small.batches {
            let applied = batch.len();
            assert_eq!(store.batch(batch), Answer { number: 0, applied });
        }
        assert_eq!(store.shape(), small.end);
        assert_eq!(store.free_chain(), small.free);
    }
    report("small_histories_replay", &[("histories", histories.len())]);
}

#[derive(Default)]
struct Counts {
    histories: usize,
    batches: usize,
    without_room: usize,
    records: usize,
    lookups: usize,
    steps: usize,
    depths: [usize; 8],
}

#[test]
fn batches_replay() {
    let file = stored("batches.bin");
    let mut blocks = blocks(&file).into_iter();
    let mut counts = Counts::default();
    while let Some(mut opening) = blocks.next() {
        let slots = opening.short();
        let batches = opening.short();
        opening.end();
        let mut store = Store::format(slots as u32);
        let mut cursor = Cursor(Place::Start);
        for _ in 0..batches {
            let block = blocks.next().expect("a block for each batch");
            replay_batch(block, slots, &mut store, &mut cursor, &mut counts);
        }
        counts.histories += 1;
    }
    let batches = format!("batches (ending at depths 0 to 7: {:?})", counts.depths);
    report(
        "batches_replay",
        &[
            ("histories", counts.histories),
            (&batches, counts.batches),
            ("answers 9", counts.without_room),
            ("records", counts.records),
            ("lookups", counts.lookups),
            ("cursor steps", counts.steps),
        ],
    );
}

fn replay_batch(
    mut block: Front,
    slots: usize,
    store: &mut Store,
    cursor: &mut Cursor,
    counts: &mut Counts,
) {
    let records = records(block.part());
    let number = block.byte() as u8;
    let applied = block.short();
    assert_eq!(store.batch(&records), Answer { number, applied });
    check_store(&mut block, slots, store);
    check_entries(&mut block, store);
    counts.lookups += check_lookups(&mut block, store);
    counts.steps += check_walk(&mut block, store, cursor);
    block.end();
    counts.batches += 1;
    counts.without_room += usize::from(number == 9);
    counts.records += records.len();
    counts.depths[store.shape().depth as usize] += 1;
}

fn records(bytes: &[u8]) -> Vec<Change> {
    let mut front = Front(bytes);
    let mut records = Vec::new();
    while !front.0.is_empty() {
        let kind = front.byte();
        let length = front.short();
        let value = front.long();
        let key = front.take(length).to_vec();
        records.push(match kind {
            1 => Change::Set(key, value),
            _ => Change::Dereference(key),
        });
    }
    records
}

fn check_store(block: &mut Front, slots: usize, store: &Store) {
    let shape = store.shape();
    let free = store.free_chain();
    let root = shape.root.expect("a batch was run");
    assert_eq!(block.long(), root.slot);
    assert_eq!(block.word(), shape.depth as usize);
    assert_eq!(block.word(), slots);
    assert_eq!(block.word() as u64, free.first().copied().unwrap_or(0));
    assert_eq!(block.word(), 0);
    let mut nodes = BTreeMap::new();
    collect(&mut nodes, &root);
    for slot in 1..=slots as u64 {
        let length = block.short();
        let bytes = block.take(length);
        match nodes.get(&slot) {
            Some(node) => assert_eq!(bytes, *node),
            None => {
                let next = free.iter().skip_while(|other| **other != slot).nth(1);
                assert_eq!(
                    (length, block.short() as u64),
                    (0, next.copied().unwrap_or(0))
                );
            }
        }
    }
}

fn collect<'a>(nodes: &mut BTreeMap<u64, &'a [u8]>, place: &'a shape::Place) {
    nodes.insert(place.slot, &place.bytes);
    place
        .children
        .iter()
        .for_each(|child| collect(nodes, child));
}

/// The entries, by the cursor: from Start forward, and from End backward.
fn check_entries(block: &mut Front, store: &Store) {
    let count = block.short();
    let entries: Vec<Pair> = (0..count).map(|_| block.pair()).collect();
    let mut cursor = Cursor(Place::Start);
    for entry in &entries {
        assert_eq!(cursor.forward(store).as_ref(), Some(entry));
    }
    assert_eq!(cursor.forward(store), None);
    for entry in entries.iter().rev() {
        assert_eq!(cursor.backward(store).as_ref(), Some(entry));
    }
    assert_eq!(cursor.backward(store), None);
}

fn check_lookups(block: &mut Front, store: &Store) -> usize {
    let count = block.short();
    let root = store.root.as_ref().expect("a batch was run");
    for _ in 0..count {
        let (key, value) = block.pair();
        assert_eq!(root.value(&key).unwrap_or(0), value);
    }
    count
}

fn check_walk(block: &mut Front, store: &Store, cursor: &mut Cursor) -> usize {
    let count = block.short();
    for _ in 0..count {
        match block.byte() {
            0 => cursor.0 = Place::Start,
            1 => cursor.0 = Place::End,
            2 => cursor.0 = Place::Seeked(block.part().to_vec()),
            3 => assert_eq!(cursor.forward(store), answer(block)),
            4 => assert_eq!(cursor.backward(store), answer(block)),
            other => panic!("no step {other}"),
        }
    }
    count
}

fn answer(block: &mut Front) -> Option<Pair> {
    (block.byte() == 1).then(|| block.pair())
}
