//! Counts that a test run says aloud.

use std::io::Write;

/// Says how many cases a test compared, also where tests run quietly.
pub fn report(test: &str, counts: &[(&str, usize)]) {
    let counts: Vec<String> = counts
        .iter()
        .map(|(what, n)| format!("{n} {what}"))
        .collect();
    let line = format!("{test}: {}\n", counts.join(", "));
    // Not `print!`, which a test run swallows.
    std::io::stdout()
        .write_all(line.as_bytes())
        .expect("standard output is there");
}
