//! Framing: little-endian numbers, and blocks behind their length.

use super::List;
use std::collections::HashSet;

/// Bytes that grow by numbers and parts.
#[derive(Default)]
pub struct Frame(pub Vec<u8>);

impl Frame {
    pub fn byte(&mut self, number: usize) {
        self.0.push(fits(number));
    }

    pub fn short(&mut self, number: usize) {
        self.0.extend(fits::<u16>(number).to_le_bytes());
    }

    pub fn word(&mut self, number: usize) {
        self.0.extend(fits::<u32>(number).to_le_bytes());
    }

    pub fn long(&mut self, number: u64) {
        self.0.extend(number.to_le_bytes());
    }

    /// Bytes as they are.
    pub fn bytes(&mut self, bytes: &[u8]) {
        self.0.extend(bytes);
    }

    /// Bytes behind their length in two bytes.
    pub fn part(&mut self, bytes: &[u8]) {
        self.short(bytes.len());
        self.bytes(bytes);
    }

    /// A block behind its length in four bytes.
    fn block(&mut self, block: &Frame) {
        self.word(block.0.len());
        self.bytes(&block.0);
    }
}

fn fits<T: TryFrom<usize>>(number: usize) -> T {
    T::try_from(number)
        .ok()
        .expect("the format has room for the number")
}

/// The blocks without those that are there already.
pub fn distinct(mut blocks: Vec<Frame>) -> Vec<Frame> {
    let mut seen = HashSet::new();
    blocks.retain(|block| seen.insert(block.0.clone()));
    blocks
}

/// A file: the number of blocks, then the blocks, none above the limit.
pub fn list(file: &'static str, blocks: &[Frame], cases: usize, limit: usize) -> List {
    let mut frame = Frame::default();
    frame.word(blocks.len());
    for block in blocks {
        assert!(block.0.len() <= limit, "a block of {file} is too large");
        frame.block(block);
    }
    let bytes = frame.0;
    List { file, bytes, cases }
}
