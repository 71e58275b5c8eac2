//! The original as oracle: histories, lists of cases, and a reading of 01 of
//! our own to compare with.

pub mod history;
pub mod lists;
pub mod model;
pub mod nodes;
pub mod random;
pub mod readings;
pub mod report;
pub mod runs;
pub mod shape;
pub mod sloppy;
pub mod small;
pub mod walk;
