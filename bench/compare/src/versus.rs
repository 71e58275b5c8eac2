//! The library before a change and after it, from two archives: the same work in turn, and in the same lent bytes, so that no side has the
//! better place in memory.

use crate::clock::timed;
use crate::nodes;
use crate::report;
use crate::rows::{in_turn, Row};
use crate::sides::archives::{After, Before};
use crate::sides::proved::{self, Exported, Library};
use crate::sides::slots::{lookups, Face};
use crate::sides::Tally;
use crate::twin::layout::{mark_words, size_of_store};
use crate::work::{behind_all, behind_prefix, load, long_behind_prefix, over_all, questions, Batch, Key, KeyOf};
use crate::work::{LOADED, LOADING_BATCHES, SLOTS};
use cikolaro::raw::LentNode;
use std::hint::black_box;
use std::ops::Range;

/// So few that some rounds are over before other work on the machine takes its turn.
const LOOKUPS: usize = 20_000;

/// So many rounds of a row follow each other, since the first has to bring the row's bytes near again. An odd number, so that another side
/// comes first there each time.
const TOGETHER: usize = 5;

/// Rows that only read are short and need no fresh copy of a store: they have more rounds. Odd too.
const READING_OFTEN: usize = 3;

/// About a sixteenth of a page: in 100 rounds the stack comes to all parts of one.
const STACK_STEP: usize = 208;

/// An archive by what it is asked for.
struct Archive {
    name: &'static str,
    format: fn(&mut [u8], u32),
    batch: fn(&mut [u8], &mut [u64], &[u8]) -> usize,
    lookups: fn(&[u8], &[Key]) -> Tally,
    scan: fn(&[u8]) -> Tally,
    audit: fn(&[u8], &mut [u64]) -> usize,
    read_nodes: fn(&[&[u8]]) -> f64,
    write_nodes: fn(&[LentNode], &[&[u8]]) -> f64,
}

impl Archive {
    fn of<E: Exported>() -> Archive {
        Archive {
            name: E::SIDE,
            format: Library::<E>::format,
            batch: Library::<E>::batch,
            lookups: lookups::<Library<E>>,
            scan: Library::<E>::scan,
            audit: Library::<E>::audit,
            read_nodes: nodes::read_by::<Library<E>>,
            write_nodes: |nodes, bytes| nodes::write_by(Library::<E>::write_node, nodes, bytes),
        }
    }
}

/// What is lent to both.
#[derive(Clone, PartialEq)]
struct Lent {
    store: Vec<u8>,
    marks: Vec<u64>,
}

impl Lent {
    fn new() -> Lent {
        Lent { store: vec![1; size_of_store(SLOTS)], marks: vec![0; mark_words(SLOTS)] }
    }

    fn loaded<K: AsRef<[u8]>>(archive: &Archive, key: KeyOf<K>) -> Lent {
        let mut lent = Lent::new();
        lent.fill(archive, &load(key, LOADED, LOADING_BATCHES));
        lent
    }

    fn copy_from(&mut self, other: &Lent) {
        self.store.copy_from_slice(&other.store);
        self.marks.copy_from_slice(&other.marks);
    }

    /// Runs a batch; its time.
    fn run<K>(&mut self, archive: &Archive, batch: &Batch<K>) -> f64 {
        let (applied, time) = timed(|| (archive.batch)(&mut self.store, &mut self.marks, &batch.records));
        assert_eq!(applied, batch.changes.len());
        time
    }

    /// Makes a store by these batches; the time of each.
    fn fill<K>(&mut self, archive: &Archive, batches: &[Batch<K>]) -> Vec<f64> {
        (archive.format)(&mut self.store, SLOTS);
        batches.iter().map(|batch| self.run(archive, batch)).collect()
    }
}

/// The times of some work; as many as it has parts.
type Work<'a> = Box<dyn FnMut(&Archive, &mut Lent) -> Vec<f64> + 'a>;

/// A row that is being measured.
struct Job<'a> {
    row: Row,
    /// How many of the things that the row is about the work has.
    count: usize,
    /// How many rounds it has for one of a row that changes the store.
    often: usize,
    work: Work<'a>,
}

impl<'a> Job<'a> {
    fn new(name: &'static str, count: usize, work: impl FnMut(&Archive, &mut Lent) -> Vec<f64> + 'a) -> Job<'a> {
        Job { row: Row::new(name), count, often: READING_OFTEN, work: Box::new(work) }
    }

    /// Of work that changes what is lent: both sides have to leave every byte and every mark alike.
    fn change(name: &'static str, count: usize, mut work: impl FnMut(&Archive, &mut Lent) -> Vec<f64> + 'a) -> Job<'a> {
        let mut left = None;
        let job = Job::new(name, count, move |archive, lent| {
            let times = work(archive, lent);
            let first = left.get_or_insert_with(|| lent.clone());
            assert!(first == lent, "{name}: {} leaves other bytes", archive.name);
            times
        });
        Job { often: 1, ..job }
    }

    /// Of a question, which both sides have to answer alike.
    fn ask(name: &'static str, count: usize, ask: impl Fn(&Archive) -> Tally + 'a) -> Job<'a> {
        let mut expected = None;
        Job::new(name, count, move |archive, _| {
            let (tally, time) = timed(|| ask(archive));
            assert_eq!(*expected.get_or_insert(tally), tally, "{name}: {} answers otherwise", archive.name);
            vec![time]
        })
    }

    /// All batches into an empty store.
    fn load(batches: Vec<Batch>) -> Job<'a> {
        let keys = batches.iter().map(|batch| batch.changes.len()).sum();
        Job::change(report::LOAD, keys, move |archive, lent| lent.fill(archive, &batches))
    }

    /// A batch on a fresh copy of a loaded store.
    fn batch<K: 'a>(name: &'static str, loaded: &'a Lent, batch: Batch<K>) -> Job<'a> {
        Job::change(name, batch.changes.len(), move |archive, lent| {
            lent.copy_from(loaded);
            vec![lent.run(archive, &batch)]
        })
    }

    fn lookups(loaded: &'a Lent, keys: Vec<Key>) -> Job<'a> {
        Job::ask(report::LOOKUP, keys.len(), move |archive| (archive.lookups)(&loaded.store, &keys))
    }

    fn scan(loaded: &'a Lent) -> Job<'a> {
        Job::ask(report::STEP, LOADED as usize, |archive| (archive.scan)(&loaded.store))
    }

    fn audit(loaded: &'a Lent) -> Job<'a> {
        let mut marked = None;
        Job::new(report::AUDIT, SLOTS as usize, move |archive, lent| {
            let time = timed(|| (archive.audit)(&loaded.store, &mut lent.marks)).1;
            let first = marked.get_or_insert_with(|| lent.marks.clone());
            assert!(*first == lent.marks, "audit: {} leaves other marks", archive.name);
            vec![time]
        })
    }

    fn node_reading(loaded: &'a Lent) -> Job<'a> {
        let nodes = nodes::of_store(&loaded.store);
        Job::new(report::READING, 1, move |archive, _| vec![(archive.read_nodes)(&nodes)])
    }

    fn node_writing(loaded: &'a Lent) -> Job<'a> {
        let nodes = nodes::of_store(&loaded.store);
        let lent: Vec<LentNode> = nodes::in_memory(&nodes).iter().map(proved::lent).collect();
        Job::new(report::WRITING, 1, move |archive, _| vec![(archive.write_nodes)(&lent, &nodes)])
    }

    /// Some rounds, and before them one that doesn't count.
    fn run(&mut self, sides: &mut [Archive], rounds: Range<usize>, lent: &mut Lent) {
        (self.work)(&sides[rounds.start % sides.len()], lent);
        let rounds = self.often * rounds.start..self.often * rounds.end;
        in_turn(sides, rounds, |side| self.row.offer_parts(side.name, (self.work)(side, lent)));
    }
}

/// All rows: with keys that share 16 bytes, and a batch with long keys.
fn jobs<'a>(loaded: &'a Lent, loaded_long: &'a Lent) -> Vec<Job<'a>> {
    let key = behind_prefix;
    vec![
        Job::load(load(key, LOADED, LOADING_BATCHES)),
        Job::lookups(loaded, questions(key, LOADED, LOOKUPS)),
        Job::scan(loaded),
        Job::node_reading(loaded),
        Job::node_writing(loaded),
        Job::audit(loaded),
        Job::batch(report::BATCH, loaded, Batch::sets(key, 1, over_all(5))),
        Job::batch(report::BEHIND_ALL, loaded, Batch::sets(key, 1, behind_all())),
        Job::batch(report::PRESENT, loaded, Batch::sets(key, 7, over_all(0))),
        Job::batch(report::REMOVALS, loaded, Batch::dereferences(key, over_all(0))),
        Job::batch(report::LONG_PREFIX, loaded_long, Batch::sets(long_behind_prefix, 1, over_all(5))),
    ]
}

/// Works with the stack that many steps deeper.
#[inline(never)]
fn deeper(steps: usize, work: &mut dyn FnMut()) {
    let step = black_box([0u8; STACK_STEP]);
    if steps == 0 {
        work();
    } else {
        deeper(steps - 1, work);
    }
    black_box(&step);
}

/// Each row's rounds are spread over the whole run: other work on the machine comes and goes in seconds, and so it disturbs some rounds of
/// all rows rather than all rounds of some. The stack and what is lent move too: where they lie favours one side or the other, and in a
/// process in which they stay it does so in all rounds.
pub fn measure(rounds: usize) -> Vec<Row> {
    let mut sides = [Archive::of::<Before>(), Archive::of::<After>()];
    let loaded = Lent::loaded(&sides[0], behind_prefix);
    let loaded_long = Lent::loaded(&sides[0], long_behind_prefix);
    let mut jobs = jobs(&loaded, &loaded_long);
    for (pass, start) in (0..rounds).step_by(TOGETHER).enumerate() {
        let end = rounds.min(start + TOGETHER);
        let mut lent = Lent::new();
        deeper(pass, &mut || jobs.iter_mut().for_each(|job| job.run(&mut sides, start..end, &mut lent)));
        eprintln!("{end} of {rounds} rounds: done");
    }
    jobs.into_iter().map(|job| job.row.each(job.count)).collect()
}
