//! The audit, beside one reading of the store's bytes.

use crate::clock::timed;
use crate::sides::proved::Proved;
use crate::sides::slots::Face;
use crate::sides::twin::Twin;
use crate::twin::layout::{mark_words, u32_at};
use audit_bench::full::{COUNT, KINDS};
use audit_bench::layout::formatted;
use std::hint::black_box;

/// Best times in nanoseconds.
pub struct Audit {
    pub store: String,
    pub slots: u32,
    pub proved: f64,
    pub twin: f64,
    pub reading: f64,
}

impl Audit {
    /// Of the proved library's audit to one reading.
    pub fn ratio(&self) -> f64 {
        self.proved / self.reading
    }
}

/// All bytes as u64 words, added up.
fn read_once(store: &[u8]) -> u64 {
    store.as_chunks().0.iter().fold(0, |sum: u64, word| sum.wrapping_add(u64::from_le_bytes(*word)))
}

pub fn measure(name: &str, store: &[u8], rounds: usize) -> Audit {
    let slots = u32_at(store, 12);
    let mut marks = vec![0; mark_words(slots)];
    let mut twin_marks = marks.clone();
    let mut audit = Audit { store: name.to_owned(), slots, proved: f64::MAX, twin: f64::MAX, reading: f64::MAX };
    let (mut proved_reached, mut twin_reached) = (0, 0);
    for turn in (0..rounds).flat_map(|round| round..round + 3) {
        let (best, time) = match turn % 3 {
            0 => (&mut audit.reading, timed(|| black_box(read_once(black_box(store)))).1),
            1 => (&mut audit.proved, timed(|| proved_reached = Proved::audit(store, &mut marks)).1),
            _ => (&mut audit.twin, timed(|| twin_reached = Twin::audit(store, &mut twin_marks)).1),
        };
        *best = best.min(time);
    }
    assert!(proved_reached == twin_reached && marks == twin_marks, "{name}: the audits differ");
    eprintln!("audit, {name}: done");
    audit
}

/// Stores of 65,535 slots: four kinds that are full, and an empty one.
pub fn full_stores(rounds: usize) -> Vec<Audit> {
    let full = KINDS.iter().map(|kind| measure(kind.name, &kind.store(), rounds));
    let mut all: Vec<Audit> = full.collect();
    all.push(measure("formatted, all slots free", &formatted(COUNT), rounds));
    all
}
