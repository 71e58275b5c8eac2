//! Stores for the audit: small ones, good and damaged, for the program
//! crates/audits, and full ones for bench/compare; and 01's audit read anew.

pub mod bases;
pub mod files;
pub mod full;
pub mod grown;
pub mod layout;
pub mod model;
pub mod random;
pub mod stores;
