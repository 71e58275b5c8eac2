//! `differential SEED COUNT`: gives the same random inputs to the linked functions, to the original and to our own reading of 01, and
//! compares every answer and every lent byte. COUNT histories; damaged stores, record buffers, random buffers, nodes and texts for each.
//! A disagreement is printed with the smallest input that still shows it, and ends the run with status 1.

mod audit;
mod damage;
mod history;
mod lines;
mod nodes;
mod records;
mod shrink;
mod sloppy;

use std::process::ExitCode;

use oracle::random::Random;

/// What was compared.
#[derive(Default, Debug)]
pub struct Counts {
    pub histories: usize,
    pub batches: usize,
    pub records: usize,
    pub no_room: usize,
    pub lookups: usize,
    pub steps: usize,
    pub refused_batches: usize,
    pub damaged_stores: usize,
    pub damaged_answers: usize,
    /// Damaged stores with a node that only the lenient reading takes, and answers there that a lenient walk would give otherwise.
    pub sloppy_stores: usize,
    pub sloppy_walks: usize,
    pub audits_passed: usize,
    pub audits_failed: usize,
    pub node_readings: usize,
    pub node_refusals: usize,
    pub strict_readings: usize,
    pub strict_refusals: usize,
    /// Those with 18, 19 and 20.
    pub refused_18_19_20: [usize; 3],
    pub node_writings: usize,
    pub writings_refused: usize,
    pub texts: usize,
    pub texts_refused: usize,
    pub lines_applied: usize,
}

/// What two sides say, where they differ.
pub type Compared = Result<(), String>;

/// Compares two answers, and tells both where they differ.
pub fn same<T: PartialEq + std::fmt::Debug>(what: &str, linked: T, told: T) -> Compared {
    if linked == told {
        return Ok(());
    }
    Err(format!("{what}: linked {linked:?}, told {told:?}"))
}

fn main() -> ExitCode {
    let words: Vec<String> = std::env::args().skip(1).collect();
    let numbers: Vec<u64> = words.iter().filter_map(|word| word.parse().ok()).collect();
    let [seed, count] = numbers[..] else {
        eprintln!("usage: differential SEED COUNT");
        return ExitCode::from(2);
    };
    let mut random = Random::new(seed);
    let mut counts = Counts::default();
    for case in 0..count {
        let parts =
            [history::case, damage::case, records::case, damage::any_bytes, nodes::case, nodes::written, lines::case];
        for part in parts {
            if let Err(told) = part(&mut random, &mut counts) {
                println!("seed {seed}, case {case}: {told}");
                return ExitCode::from(1);
            }
        }
    }
    println!("agreed, seed {seed}: {counts:?}");
    ExitCode::SUCCESS
}
