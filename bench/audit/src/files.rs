//! The stored files of crates/audits, from the stores and our reading of 01.
//!
//! audits.bin: u32 blocks, then each block behind its length (u32). A block:
//!
//!     u32      how long the buffer is
//!     u16      parts n
//!     n × (u32 place, part bytes); all other bytes of the buffer are 0
//!     u8       mark words lent
//!     part     name
//!
//! A part is a u16 length and that many bytes. Numbers are little-endian.

use crate::stores::{self, Case};

/// Zeros that are worth a new part.
const GAP: usize = 8;

pub fn data() -> Vec<u8> {
    let cases = stores::all();
    let mut file = (cases.len() as u32).to_le_bytes().to_vec();
    for case in &cases {
        let block = block(case);
        assert!(block.len() <= 65_536, "a block is too large");
        file.extend((block.len() as u32).to_le_bytes());
        file.extend(block);
    }
    file
}

fn block(case: &Case) -> Vec<u8> {
    let mut block = (case.buffer.len() as u32).to_le_bytes().to_vec();
    let parts = parts(&case.buffer);
    block.extend((parts.len() as u16).to_le_bytes());
    for (start, end) in parts {
        block.extend((start as u32).to_le_bytes());
        add_part(&mut block, &case.buffer[start..end]);
    }
    block.push(case.words as u8);
    add_part(&mut block, case.name.as_bytes());
    block
}

fn add_part(block: &mut Vec<u8>, bytes: &[u8]) {
    block.extend((bytes.len() as u16).to_le_bytes());
    block.extend(bytes);
}

/// Where the bytes that are not 0 stand, near ones together.
fn parts(buffer: &[u8]) -> Vec<(usize, usize)> {
    let mut parts: Vec<(usize, usize)> = Vec::new();
    for (at, _) in buffer.iter().enumerate().filter(|(_, byte)| **byte != 0) {
        match parts.last_mut() {
            Some((_, end)) if at < *end + GAP => *end = at + 1,
            _ => parts.push((at, at + 1)),
        }
    }
    parts
}

/// What the program is to write.
pub fn stdout() -> String {
    stores::all().iter().map(line).collect()
}

fn line(case: &Case) -> String {
    let answer = case.expected();
    let words: String = answer
        .marks
        .iter()
        .map(|word| format!(" {word:016x}"))
        .collect();
    let (name, number, reached) = (case.name, answer.number, answer.reached);
    format!("{name}: {number}, reached {reached}, marks{words}\n")
}
