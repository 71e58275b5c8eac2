//! The stored files of crates/audits are what the generator makes.

use audit_bench::{files, stores};
use std::collections::HashSet;
use std::fs;

const CRATE: &str = concat!(env!("CARGO_MANIFEST_DIR"), "/../../crates/audits");

#[test]
fn files_are_as_made() {
    assert!(fs::read(format!("{CRATE}/data/audits.bin")).unwrap() == files::data());
    assert_eq!(
        fs::read_to_string(format!("{CRATE}/stdout")).unwrap(),
        files::stdout()
    );
}

/// How many stores pass, are refused with 1 and 2, and fail.
#[test]
fn numbers_are_as_meant() {
    let cases = stores::all();
    let names: HashSet<&str> = cases.iter().map(|case| case.name).collect();
    assert_eq!(names.len(), cases.len());
    let numbers: Vec<u32> = cases.iter().map(|case| case.expected().number).collect();
    assert!(numbers[..16].iter().all(|number| *number == 0));
    assert!(numbers[16..29].iter().all(|number| *number == 1));
    assert!(numbers[29..33].iter().all(|number| *number == 2));
    assert!(numbers[33..].iter().all(|number| *number == 8));
    println!("{} stores", cases.len());
}
