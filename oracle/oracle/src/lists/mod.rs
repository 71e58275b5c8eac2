//! The stored lists: inputs and the original's answers as bytes, for programs
//! that have no heap. FORMATS.md describes them.

use std::path::{Path, PathBuf};

pub mod batches;
mod damages;
mod frame;
pub mod node_readings;
pub mod node_writings;
pub mod walks;

/// Where a list is stored: beside the program that replays it, if there is
/// one.
pub fn stored_at(file: &str) -> PathBuf {
    let project = Path::new(env!("CARGO_MANIFEST_DIR")).join("../..");
    match file {
        batches::FILE => project.join("crates/replay_batches/data").join(file),
        walks::FILE => project.join("crates/replay_walks/data").join(file),
        _ => project.join("crates/replay_nodes/data").join(file),
    }
}

/// A stored list: its file, and what is in it.
pub struct List {
    pub file: &'static str,
    pub bytes: Vec<u8>,
    pub cases: usize,
}

/// All lists.
pub fn all() -> [List; 4] {
    [
        node_readings::list(),
        node_writings::list(),
        batches::list(),
        walks::list(),
    ]
}
