//! `versus ROUNDS [--self]` prints the table of two archives. With `--self` both are the same one.

use compare::report::versus::Versus;
use compare::versus::measure;
use std::num::NonZeroUsize;

fn main() {
    let words: Vec<String> = std::env::args().skip(1).collect();
    let rounds = words.first().and_then(|word| word.parse::<NonZeroUsize>().ok());
    let is_same = words.get(1).is_some_and(|word| word == "--self");
    let (Some(rounds), true) = (rounds, words.len() == 1 + usize::from(is_same)) else {
        eprintln!("usage: versus ROUNDS [--self]");
        std::process::exit(2);
    };
    let rounds = rounds.get();
    print!("{}", Versus { rounds, rows: measure(rounds), is_same }.table());
}
