//! A B-tree of order 8 in a byte store that the caller lends, proved.
//!
//! The functions that read and change a store are written in Rattle and proved to meet their contracts for all inputs; this crate
//! calls them and adds Rust's types. "01" is document 01 of the project, which says what the tree must do, and "02" the one that
//! changes it.
//!
//! ```
//! use cikolaro::{Batch, Store};
//!
//! let mut store = Store::new(25)?;
//! let mut batch = Batch::new();
//! batch.set(b"b", 7).set(b"a", 5);
//! assert_eq!(store.apply(&batch)?, 2);
//!
//! assert_eq!(store.get(b"a")?, Some(5));
//! assert_eq!(store.get(b"c")?, None);
//!
//! let entries = store.entries().collect::<Result<Vec<_>, _>>()?;
//! assert_eq!(entries[1].key(), b"b");
//! assert_eq!(entries[1].value, 7);
//! # Ok::<(), cikolaro::Error>(())
//! ```

mod batch;
mod cursor;
mod error;
pub mod lines;
pub mod node;
pub mod raw;
mod store;
pub mod view;

pub use batch::Batch;
pub use cursor::{Cursor, Entries, Entry, Place};
pub use error::{Error, Refusal};
pub use store::{Audit, Store};

/// The longest key, in bytes.
pub const LONGEST_KEY: usize = 288;

/// The most separators that a node has.
pub const MOST_SEPARATORS: usize = 8;

/// The longest node in standard form, in bytes.
pub const LONGEST_NODE: usize = 2_480;

/// The most slots that a store has.
pub const MOST_SLOTS: u32 = 65_535;

/// The bytes in front of the first slot.
pub const HEADER_SIZE: usize = 24;

/// The bytes of a slot.
pub const SLOT_SIZE: usize = 2_560;

/// The most records that a batch has.
pub const MOST_RECORDS: usize = 65_535;

/// How many bytes a store of so many slots has.
///
/// ```
/// assert_eq!(cikolaro::store_size(25), 64_024);
/// ```
pub const fn store_size(count: u32) -> usize {
    HEADER_SIZE + SLOT_SIZE * count as usize
}

/// How many mark words the audit of a store of so many slots asks for.
pub(crate) const fn mark_words(count: u32) -> usize {
    (count as usize).div_ceil(64)
}
