//! A lent buffer as lookup and cursor meet it: refusal 1, then header and
//! slots.

use super::bytes::Bytes;

/// "Buffer isn't 24+2,560×count bytes, count outside 1..65,535, bytes 20..23
/// not 0."
pub const NOT_A_STORE: u8 = 1;

pub const HEADER: usize = 24;
pub const SLOT: usize = 2560;

const MOST_SLOTS: u64 = 65_535;

/// Where a slot begins.
pub fn start_of(slot: u64) -> usize {
    HEADER + SLOT * (slot as usize - 1)
}

/// What a walk finds in the buffer.
pub fn store(buffer: &[u8]) -> Result<Bytes, u8> {
    if buffer.len() < HEADER {
        return Err(NOT_A_STORE);
    }
    let count = number(buffer, 12, 4);
    let has_count = (1..=MOST_SLOTS).contains(&count);
    let has_size = buffer.len() as u64 == HEADER as u64 + SLOT as u64 * count;
    if !has_count || !has_size || number(buffer, 20, 4) != 0 {
        return Err(NOT_A_STORE);
    }
    Ok(Bytes {
        root: number(buffer, 0, 8),
        depth: number(buffer, 8, 4) as u32,
        count,
        nodes: (1..=count).map(|slot| (slot, node(buffer, slot))).collect(),
    })
}

/// As many bytes as the slot says, as far as it goes.
fn node(buffer: &[u8], slot: u64) -> Vec<u8> {
    let start = start_of(slot);
    let length = number(buffer, start, 4) as usize;
    buffer[start + 4..start + 4 + length.min(SLOT - 4)].to_vec()
}

fn number(buffer: &[u8], at: usize, bytes: usize) -> u64 {
    let mut number = [0; 8];
    number[..bytes].copy_from_slice(&buffer[at..at + bytes]);
    u64::from_le_bytes(number)
}
