//! How cost grows with the store.

use crate::clock::timed;
use crate::sides::proved::Proved;
use crate::sides::slots::{Face, InSlots};
use crate::sides::twin::Twin;
use crate::sides::{run, Side};
use crate::work::{behind_prefix, load, questions, Batch, Key};

const SIZES: [u32; 7] = [1_000, 2_000, 5_000, 10_000, 20_000, 40_000, 60_000];
const LOOKUPS: usize = 20_000;
const SETS: u64 = 1_000;

/// Keys for each ten slots, so that about two thirds of the slots are used.
const KEYS_TO_TEN_SLOTS: u64 = 38;
const LOADING_BATCHES: u64 = 6;

/// Best times in nanoseconds for one of each, and of one whole audit.
#[derive(Clone, Copy)]
pub struct Costs {
    pub lookup: f64,
    pub step: f64,
    /// One of a batch of 1,000, its share of the audit included.
    pub set: f64,
    pub audit: f64,
}

impl Costs {
    const NONE: Costs = Costs { lookup: f64::MAX, step: f64::MAX, set: f64::MAX, audit: f64::MAX };

    /// A set without its share of the audit. In a large store it is a small difference of large times.
    pub fn set_alone(&self) -> f64 {
        self.set - self.audit / SETS as f64
    }

    fn offer(&mut self, new: Costs) {
        self.lookup = self.lookup.min(new.lookup);
        self.step = self.step.min(new.step);
        self.set = self.set.min(new.set);
        self.audit = self.audit.min(new.audit);
    }
}

pub struct Point {
    pub slots: u32,
    pub used: usize,
    pub keys: u64,
    pub proved: Costs,
    pub twin: Costs,
}

/// What is done to both.
struct Work {
    loaded: Vec<Batch>,
    keys: u64,
    lookups: Vec<Key>,
    sets: Batch,
}

impl Work {
    fn new(slots: u32) -> Work {
        let keys = u64::from(slots) * KEYS_TO_TEN_SLOTS / 10;
        Work {
            loaded: load(behind_prefix, keys, LOADING_BATCHES),
            keys,
            lookups: questions(behind_prefix, keys, LOOKUPS),
            sets: Batch::sets(behind_prefix, 1, (0..SETS).map(|i| i * keys / SETS * 10 + 5)),
        }
    }

    fn once<F: Face>(&self, side: &mut InSlots<F>) -> Costs {
        side.restore(&self.loaded);
        let lookup = timed(|| side.lookups(&self.lookups)).1 / self.lookups.len() as f64;
        let (tally, scan) = timed(|| side.scan());
        assert_eq!(tally.count, self.keys);
        let audit = timed(|| F::audit(&side.store, &mut side.marks)).1;
        let set = run(side, &self.sets) / SETS as f64;
        Costs { lookup, step: scan / self.keys as f64, set, audit }
    }
}

fn point(slots: u32, rounds: usize) -> Point {
    let work = Work::new(slots);
    let mut proved = InSlots::<Proved>::new(slots);
    let mut twin = InSlots::<Twin>::new(slots);
    proved.restore(&work.loaded);
    let used = Proved::audit(&proved.store, &mut proved.marks);
    let mut point = Point { slots, used, keys: work.keys, proved: Costs::NONE, twin: Costs::NONE };
    for round in 0..rounds {
        for turn in [round, round + 1] {
            if turn % 2 == 0 {
                point.proved.offer(work.once(&mut proved));
            } else {
                point.twin.offer(work.once(&mut twin));
            }
        }
        assert!(proved.store == twin.store, "the bytes of the stores differ");
    }
    eprintln!("{slots} slots: done");
    point
}

pub fn measure(rounds: usize) -> Vec<Point> {
    SIZES.iter().map(|slots| point(*slots, rounds)).collect()
}
