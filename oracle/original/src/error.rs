//! Errors, as far as the btree files make them.

pub type Result<T> = std::result::Result<T, Error>;

#[derive(Debug, Clone, PartialEq, Eq)]
pub enum Error {
    /// The original's own complaint about the bytes it reads.
    Corruption(String),
    /// The original's complaint about an operation that a btree doesn't have.
    InvalidInput(String),
    /// Ours: the slot chain is empty. The original has no such notion.
    NoRoom,
}
