//! Histories: the original and our reading of 01 side by side.

use oracle::history::{batch, Keys, Phase, Style};
use oracle::model::cursor::{Cursor, Place};
use oracle::model::store::{Answer, Store, NO_ROOM};
use oracle::random::Random;
use oracle::report::report;
use oracle::runs::{feed, runs};
use oracle::shape::Shape;
use oracle::walk::{retrace, Walk};
use original::btree::glue::{Change, Error, Numbering, Original};

/// More slots than any tree here takes.
const PLENTY: u32 = 20_000;

#[derive(Default)]
struct Counts {
    histories: usize,
    batches: usize,
    records: usize,
    lookups: usize,
    steps: usize,
    depths: [usize; 8],
}

impl Counts {
    fn report(&self, test: &str) {
        let depths = format!("batches (ending at depths 0 to 7: {:?})", self.depths);
        report(
            test,
            &[
                ("histories", self.histories),
                ("records", self.records),
                ("lookups", self.lookups),
                ("cursor steps", self.steps),
                (&depths, self.batches),
            ],
        );
    }
}

/// The original twice.
struct Originals {
    /// Fed so that it numbers as 01 does.
    by_runs: Original,
    /// Fed whole batches.
    whole: Original,
}

impl Originals {
    fn new() -> Self {
        let open = |numbering| Original::new(numbering).expect("an empty tree opens");
        Originals {
            by_runs: open(Numbering::Chain(PLENTY)),
            whole: open(Numbering::AsTheyCome),
        }
    }
}

/// Runs a batch on all of them. They have to agree in shape, node bytes, slots
/// and free chain; the one fed whole batches in what doesn't hang on numbers.
fn run(theirs: &Originals, ours: &mut Store, records: &[Change]) -> Shape {
    feed(&theirs.by_runs, records).expect("there is room");
    theirs.whole.batch(records).expect("there is room");
    let applied = records.len();
    assert_eq!(ours.batch(records), Answer { number: 0, applied });

    let shape = Shape::of(&theirs.by_runs);
    assert_eq!(shape, ours.shape());
    assert_eq!(theirs.by_runs.free_chain(), ours.free_chain());
    assert_eq!(theirs.by_runs.node_count(), shape.node_count());
    let whole = Shape::of(&theirs.whole);
    assert_eq!(whole.without_numbers(), shape.without_numbers());
    assert_eq!(theirs.whole.node_count(), shape.node_count());
    shape
}

/// Looks up keys that are there and keys that mostly aren't.
fn look_up(
    theirs: &Originals,
    ours: &Store,
    wanted: &[Vec<u8>],
    present: &[(Vec<u8>, u64)],
) -> usize {
    let root = ours.root.as_ref().expect("a batch was run");
    for key in wanted {
        let found = present.binary_search_by(|(other, _)| other.cmp(key));
        let found = found.ok().map(|at| present[at].1);
        assert_eq!(theirs.by_runs.get(key), Ok(found));
        assert_eq!(theirs.whole.get(key), Ok(found));
        assert_eq!(root.value(key), found);
    }
    wanted.len()
}

fn wanted(keys: Keys, present: &[(Vec<u8>, u64)], random: &mut Random) -> Vec<Vec<u8>> {
    let mut wanted: Vec<_> = (0..15).map(|_| keys.draw(false, random)).collect();
    if !present.is_empty() {
        wanted.extend((0..15).map(|_| random.pick(present).0.clone()));
    }
    wanted
}

/// The entries, by the cursor from Start to End and back.
fn scan(walk: &mut Walk, cursor: &mut Cursor, ours: &Store, entries: usize) -> usize {
    retrace(&walk.start(), cursor, ours);
    (0..=entries).for_each(|_| retrace(&walk.forward(), cursor, ours));
    assert_eq!(cursor.0, Place::End);
    (0..=entries).for_each(|_| retrace(&walk.backward(), cursor, ours));
    assert_eq!(cursor.0, Place::Start);
    2 * (entries + 1)
}

/// One history: batches for the phases, everything compared after each. The
/// cursors stay open while batches run.
fn history(style: Style, phases: &[Phase], random: &mut Random, counts: &mut Counts) {
    const STEPS: usize = 60;
    let theirs = Originals::new();
    let mut ours = Store::format(PLENTY);
    let mut walk = Walk::new(&theirs.by_runs);
    let mut whole_walk = Walk::new(&theirs.whole);
    let mut cursor = Cursor(Place::Start);
    let mut whole_cursor = Cursor(Place::Start);
    let mut shape = Shape::of(&theirs.by_runs);
    counts.histories += 1;
    for &phase in phases {
        let records = batch(style, phase, &shape, random);
        shape = run(&theirs, &mut ours, &records);
        walk.batch_ran();
        whole_walk.batch_ran();
        for _ in 0..STEPS {
            retrace(&walk.any_step(style.keys, random), &mut cursor, &ours);
            retrace(
                &whole_walk.any_step(style.keys, random),
                &mut whole_cursor,
                &ours,
            );
        }
        let entries = shape.entries();
        let wanted = wanted(style.keys, &entries, random);
        counts.lookups += look_up(&theirs, &ours, &wanted, &entries);
        counts.steps += 2 * STEPS;
        if random.percent(10) {
            counts.steps += scan(&mut walk, &mut cursor, &ours, entries.len());
        }
        counts.batches += 1;
        counts.records += records.len();
        counts.depths[shape.depth as usize] += 1;
    }
}

fn any_phases(random: &mut Random) -> Vec<Phase> {
    let count = random.between(1, 14);
    let mut phases = vec![*random.pick(&[Phase::Grow, Phase::Append, Phase::Mixed])];
    for _ in 0..count {
        let growing = [Phase::Grow, Phase::Append];
        let phase = if random.percent(40) {
            *random.pick(&growing)
        } else {
            *random.pick(&Phase::ALL)
        };
        phases.push(phase);
    }
    phases
}

fn histories(test: &str, seed: u64, count: usize, most: usize) {
    let mut random = Random::new(seed);
    let mut counts = Counts::default();
    for _ in 0..count {
        let style = Style {
            keys: *random.pick(&Keys::ALL),
            fewest: 0,
            most: random.between(1, most),
            largest_value: u64::MAX,
        };
        let phases = any_phases(&mut random);
        history(style, &phases, &mut random, &mut counts);
    }
    counts.report(test);
}

#[test]
fn small_trees_agree() {
    histories("small_trees_agree", 201, 6000, 60);
}

#[test]
fn middling_trees_agree() {
    histories("middling_trees_agree", 202, 400, 1500);
}

/// Counting keys up, then taken away in several ways: the deepest trees that
/// few entries can make.
#[test]
fn deep_trees_agree() {
    use Phase::{Append, Back, Front, Grow, Inner, Shrink};
    let style = Style {
        keys: Keys::Numbers,
        fewest: 7000,
        most: 8000,
        largest_value: u64::MAX,
    };
    let plans: [&[Phase]; 4] = [
        &[Append, Inner, Shrink, Grow, Back],
        &[Append, Append, Append, Append, Append],
        &[Append, Append, Inner, Inner, Shrink, Front],
        &[Append, Grow, Shrink, Shrink, Append, Front, Front, Back],
    ];
    let mut random = Random::new(203);
    let mut counts = Counts::default();
    for phases in plans {
        history(style, phases, &mut random, &mut counts);
    }
    counts.report("deep_trees_agree");
}

/// The original, given slots by the chain, asks for one that isn't there in
/// exactly the run where 01 answers 9.
#[test]
fn room_runs_out_in_the_same_run() {
    const CASES: usize = 4000;
    let mut random = Random::new(204);
    let mut refusals = 0;
    for _ in 0..CASES {
        refusals += usize::from(meets_no_room(&mut random));
    }
    assert!(refusals > CASES / 4);
    report(
        "room_runs_out_in_the_same_run",
        &[("histories", CASES), ("answers 9", refusals)],
    );
}

fn meets_no_room(random: &mut Random) -> bool {
    let count = random.between(1, 40) as u32;
    let theirs = Original::new(Numbering::Chain(count)).expect("an empty tree opens");
    let mut ours = Store::format(count);
    let style = Style {
        keys: *random.pick(&Keys::ALL),
        fewest: 0,
        most: 80,
        largest_value: 9,
    };
    for phase in any_phases(random) {
        let records = batch(style, phase, &Shape::of(&theirs), random);
        let answer = ours.batch(&records);
        if answer.number == NO_ROOM {
            assert_eq!(applied_before_no_room(&theirs, &records), answer.applied);
            return true;
        }
        feed(&theirs, &records).expect("01 says there is room");
        assert_eq!(Shape::of(&theirs), ours.shape());
    }
    false
}

fn applied_before_no_room(theirs: &Original, records: &[Change]) -> usize {
    let mut applied = 0;
    for run in runs(records) {
        match feed(theirs, run) {
            Ok(()) => applied += run.len(),
            Err(Error::NoRoom) => return applied,
            Err(other) => panic!("{other:?}"),
        }
    }
    panic!("01 says there is no room, the original finds some");
}
