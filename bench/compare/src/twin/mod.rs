//! The same tree in plain Rust, written for speed: 01's slots, node bytes, audit, batch, lookup and cursor, without proofs. It
//! shares no code with the proved library. Nothing is allocated, and edits move bytes within their slot.
//!
//! A batch trusts the nodes that its own audit has just read. Lookup and cursor trust nothing: they test all of each node.

#![forbid(unsafe_code)]

pub mod audit;
pub mod batch;
pub mod codec;
mod edit;
mod insert;
pub mod layout;
mod records;
mod remove;
pub mod walk;

pub use layout::format;

/// 01's numbers, as far as a twin answers them.
pub mod number {
    pub const NOT_STORE: u32 = 1;
    pub const FEW_MARKS: u32 = 2;
    pub const SHORT: u32 = 3;
    pub const LONG_KEY: u32 = 4;
    pub const BAD_VALUE: u32 = 5;
    pub const FALLS: u32 = 6;
    pub const TOO_MANY: u32 = 7;
    pub const FAILS: u32 = 8;
    pub const NO_ROOM: u32 = 9;
    pub const NO_SPACE: u32 = 10;
    pub const SHORT_CHILD: u32 = 11;
    pub const SHORT_HEAD: u32 = 12;
    pub const SHORT_SIZE: u32 = 13;
    pub const SHORT_KEY: u32 = 14;
    pub const TOO_FULL: u32 = 16;
}

/// What was asked for, or 01's number of the refusal.
pub type Answer<T> = Result<T, u32>;
