//! No compression. What is left of it tells node writes from value writes:
//! the original turns compression off for nodes and only for them.

#[derive(Debug, PartialEq, Eq)]
pub struct Compress {
    is_on: bool,
}

/// The setting for the duration of a node write.
pub static NO_COMPRESSION: Compress = Compress { is_on: false };

impl Compress {
    pub fn new(_kind: (), _threshold: u32) -> Self {
        Compress { is_on: true }
    }

    /// Is a write with this setting the write of a node?
    pub fn is_for_nodes(&self) -> bool {
        !self.is_on
    }
}
