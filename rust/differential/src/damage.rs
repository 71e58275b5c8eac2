//! Damaged stores and random bytes, against our own reading of 01.

use cikolaro::raw::{self, Answer, Lent};
use oracle::history::{drawn, Keys, Phase, Style};
use oracle::lists::walks::laid_out;
use oracle::model::buffer;
use oracle::model::bytes::Way;
use oracle::model::cursor::Place;
use oracle::model::store::Store as Model;
use oracle::random::Random;
use original::btree::glue::Pair;

use crate::audit::audit;
use crate::history::lent;
use crate::shrink::shrunk;
use crate::{same, sloppy, Compared, Counts};

/// Bytes put at a place.
pub type Edit = (usize, Vec<u8>);

pub fn case(random: &mut Random, counts: &mut Counts) -> Compared {
    let keys = *random.pick(&[Keys::Bytes, Keys::Short, Keys::Words, Keys::Long]);
    let style = Style { keys, fewest: 5, most: 60, largest_value: 1000 };
    let drawn = drawn(style, &[Phase::Grow, Phase::Grow, Phase::Mixed], random);
    let mut model = Model::format(drawn.most_used + random.below(4) as u32);
    for batch in &drawn.batches {
        assert_eq!(model.batch(batch).number, 0);
    }
    let good = laid_out(&model.shape(), &model.free_chain());
    for _ in 0..10 {
        let edits: Vec<Edit> = (0..random.between(0, 3)).map(|_| edit(&good, random)).collect();
        let questions: Vec<Vec<u8>> = (0..6).map(|_| keys.draw(false, random)).collect();
        let seed = random.any();
        let edited = |edits: &[Edit]| check(&with(&good, edits), &questions, seed, &mut Counts::default());
        if let Err(told) = check(&with(&good, &edits), &questions, seed, counts) {
            let fewest = shrunk(edits, &|e: &[Edit]| edited(e).is_err());
            let last = edited(&fewest).err().unwrap_or(told);
            return Err(format!("{last}\n  batches {:?}\n  edits {fewest:?}, keys asked {questions:?}", drawn.batches));
        }
    }
    Ok(())
}

/// Random bytes, half of them with a header that has the right size and zeros.
pub fn any_bytes(random: &mut Random, counts: &mut Counts) -> Compared {
    for _ in 0..5 {
        let count = random.between(1, 5) as u32;
        let size = if random.percent(50) { cikolaro::store_size(count) } else { random.below(6_000) };
        let mut store = if random.percent(50) { random.bytes(size) } else { vec![0; size] };
        if size >= 24 {
            store[12..16].copy_from_slice(&count.to_le_bytes());
            store[20..24].fill(u8::from(random.percent(10)));
            if random.percent(80) {
                store[..12].fill(0);
                store[0] = random.below(7) as u8;
                store[8] = random.below(10) as u8;
            }
        }
        let questions: Vec<Vec<u8>> = (0..4)
            .map(|_| {
                let n = random.below(300);
                random.bytes(n)
            })
            .collect();
        let seed = random.any();
        check(&store, &questions, seed, counts)
            .map_err(|told| format!("{told}\n  {size} random bytes, keys {questions:?}"))?;
    }
    Ok(())
}

fn with(good: &[u8], edits: &[Edit]) -> Vec<u8> {
    let mut store = good.to_vec();
    for (at, bytes) in edits {
        for (to, from) in store.iter_mut().skip(*at).zip(bytes) {
            *to = *from;
        }
    }
    store
}

/// A change where it is likely to matter: header, a slot's front, a child, any byte; or a node that is still readable, but not strictly.
fn edit(good: &[u8], random: &mut Random) -> Edit {
    let count = (good.len() - 24) / 2560;
    let start = 24 + 2560 * random.below(count);
    let byte = *random.pick(&[0, 1, 2, 3, 7, 8, 9, 97, 255, count as u8, count as u8 + 1]);
    if random.percent(25) {
        if let Some(edit) = sloppy::edit(good, start, random) {
            return edit;
        }
    }
    match random.below(10) {
        0 => (random.below(24), vec![byte]),
        1 => (8, vec![random.below(10) as u8]),
        2 => (start, vec![byte]),
        3 => (start, (random.below(2600) as u32).to_le_bytes().to_vec()),
        4 => (start + 4, vec![byte]),
        5 => (start + random.below(2560), vec![byte]),
        6 => (start, good[24..24 + 2560].to_vec()),
        _ => (start + 4 + random.below(200), vec![byte]),
    }
}

fn check(store: &[u8], questions: &[Vec<u8>], seed: u64, counts: &mut Counts) -> Compared {
    let mut random = Random::new(seed);
    counts.damaged_stores += 1;
    audits(store, &mut random, counts)?;
    let lenient = sloppy::lenient(store);
    counts.sloppy_stores += usize::from(lenient.is_some());
    for key in questions {
        let told = buffer::store(store).and_then(|s| s.lookup(key));
        same("lookup", answered(raw::lookup(store, key)), told.map_err(u32::from))?;
        counts.sloppy_walks += usize::from(sloppy::differs(store, &lenient, |s| s.lookup(key)));
        for place in [Place::Start, Place::End, Place::At(key.clone()), Place::Seeked(key.clone())] {
            for way in [Way::Forward, Way::Backward] {
                steps(store, &place, way, &mut random)?;
                counts.damaged_answers += 1;
                counts.sloppy_walks += usize::from(sloppy::differs(store, &lenient, |s| s.walk(&place, way)));
            }
        }
    }
    Ok(())
}

fn answered(answer: Answer) -> Result<Option<u64>, u32> {
    match answer.number {
        0 => Ok(answer.value),
        n => Err(n),
    }
}

/// A step from a cursor with anything behind its key. A refusal leaves it.
fn steps(store: &[u8], place: &Place, way: Way, random: &mut Random) -> Compared {
    let mut cursor = Lent { kind: 0, length: 0, key: [0; 288] };
    cursor.key.copy_from_slice(&random.bytes(288));
    let key: &[u8] = match place {
        Place::Start | Place::End => &[],
        Place::At(key) | Place::Seeked(key) => key,
    };
    let held = key.len().min(288);
    cursor.key[..held].copy_from_slice(&key[..held]);
    cursor.length = key.len();
    cursor.kind = match place {
        Place::Start => 0,
        Place::End => 1,
        Place::At(_) => 2,
        Place::Seeked(_) => 3,
    };
    let before = cursor;
    let told: Result<Option<Pair>, u8> = buffer::store(store).and_then(|s| s.walk(place, way));
    let (answer, none) = match way {
        Way::Forward => (raw::forward(store, &mut cursor), 1),
        Way::Backward => (raw::backward(store, &mut cursor), 0),
    };
    let value = told.as_ref().map(|pair| pair.as_ref().map(|(_, value)| *value));
    same("step", answered(answer), value.map_err(|n| u32::from(*n)))?;
    let after = match &told {
        Err(_) => before,
        Ok(None) => lent(none, &[]),
        Ok(Some((key, _))) => lent(2, key),
    };
    same("the cursor after a step", cursor, after)
}

/// The audit and an empty batch: number, marks, the store.
fn audits(store: &[u8], random: &mut Random, counts: &mut Counts) -> Compared {
    let words = random.between(0, 3);
    let before: Vec<u64> = (0..words).map(|_| random.any()).collect();
    let (number, reached) = audit(store, words);
    let mut told = if number == 0 || number == 8 { vec![0; words] } else { before.clone() };
    for slot in &reached {
        told[(*slot as usize - 1) / 64] |= 1 << ((slot - 1) % 64);
    }
    let mut marks = before.clone();
    same("audit", raw::audit(store, &mut marks), (number, reached.len()))?;
    same("marks of the audit", &marks, &told)?;
    counts.audits_passed += usize::from(number == 0);
    counts.audits_failed += usize::from(number == 8);
    if number == 0 {
        return Ok(());
    }
    let (mut after, mut marks) = (store.to_vec(), before);
    same("a batch on it", raw::batch(&mut after, &mut marks, &[]), (number, 0))?;
    same("marks of the batch", marks, told)?;
    same("the store stays", after == store, true)
}
