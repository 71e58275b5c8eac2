//! `compare ROUNDS SVG [TABLE]` writes a plot and a table.

use compare::rows::{Bench, Row};
use compare::work::{behind_all, behind_prefix, load, number_first, over_all, questions, Batch};
use compare::work::{LOADED, LOADING_BATCHES, LOOKUPS, SLOTS};
use compare::{audits, growth, nodes, report, sides};
use std::num::NonZeroUsize;

/// The rows with keys that share 16 bytes.
fn shared_prefix(rounds: usize) -> (Vec<Row>, audits::Audit) {
    let key = behind_prefix;
    let loaded = load(key, LOADED, LOADING_BATCHES);
    let mut bench = Bench { sides: sides::all(SLOTS), rounds };
    let mut rows = vec![bench.load(report::LOAD, &loaded)];
    bench.restore(&loaded);
    rows.push(bench.lookups(report::LOOKUP, &questions(key, LOADED, LOOKUPS)));
    rows.push(bench.scan(report::STEP, LOADED as usize));
    rows.push(nodes::reading(bench.store(), rounds));
    rows.push(nodes::writing(bench.store(), rounds));
    let audit = audits::measure("the loaded store", bench.store(), rounds);
    rows.push(bench.batch(report::BATCH, &loaded, &Batch::sets(key, 1, over_all(5))));
    rows.push(bench.batch(report::BEHIND_ALL, &loaded, &Batch::sets(key, 1, behind_all())));
    rows.push(bench.batch(report::PRESENT, &loaded, &Batch::sets(key, 7, over_all(0))));
    rows.push(bench.batch(report::REMOVALS, &loaded, &Batch::dereferences(key, over_all(0))));
    (rows, audit)
}

/// The batch again with keys that differ in their first bytes.
fn no_prefix(rounds: usize) -> Row {
    let loaded = load(number_first, LOADED, LOADING_BATCHES);
    let mut bench = Bench { sides: sides::all(SLOTS), rounds };
    bench.batch("batch, no shared prefix", &loaded, &Batch::sets(number_first, 1, over_all(5)))
}

fn main() {
    let words: Vec<String> = std::env::args().skip(1).collect();
    let rounds = words.first().and_then(|word| word.parse::<NonZeroUsize>().ok());
    let (Some(rounds), Some(svg)) = (rounds, words.get(1)) else {
        eprintln!("usage: compare ROUNDS SVG [TABLE]");
        std::process::exit(2);
    };
    let rounds = rounds.get();
    let (mut rows, audit) = shared_prefix(rounds);
    rows.push(no_prefix(rounds));
    let few = rounds.div_ceil(2);
    let mut audits = vec![audit];
    audits.extend(audits::full_stores(few));
    let growth = growth::measure(few);
    let report = report::Report { rounds, rows, audits, growth };
    let table = report.table();
    print!("{table}");
    std::fs::write(svg, report.plot()).expect("the plot is written");
    if let Some(file) = words.get(2) {
        std::fs::write(file, table).expect("the table is written");
    }
}
