//! Writes crates/audits/data/audits.bin and crates/audits/stdout.

use audit_bench::files;
use std::fs;

fn main() -> std::io::Result<()> {
    let crate_ = concat!(env!("CARGO_MANIFEST_DIR"), "/../../crates/audits");
    fs::write(format!("{crate_}/data/audits.bin"), files::data())?;
    fs::write(format!("{crate_}/stdout"), files::stdout())
}
