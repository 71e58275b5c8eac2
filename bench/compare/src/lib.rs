//! The proved library, its Rust twin, the original, BTreeMap, LMDB and SQLite at the same work, in one process and in one run.
//! bench/README.md says what is measured and how to read it.

pub mod audits;
pub mod clock;
pub mod growth;
pub mod nodes;
pub mod report;
pub mod rows;
pub mod sides;
pub mod twin;
#[cfg(feature = "versus")]
pub mod versus;
pub mod work;
