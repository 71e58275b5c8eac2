//! Our own reading of document 01, with C-16 of document 02, written from
//! their text and not from the original: node bytes, the tree with its slots,
//! lookup and cursor. It is plain and slow on purpose.

pub mod buffer;
pub mod bytes;
pub mod codec;
pub mod cursor;
pub mod store;
