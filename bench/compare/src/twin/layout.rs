//! Header and slots.

use super::{number, Answer};

pub const HEADER: usize = 24;
pub const SLOT: usize = 2_560;
/// In a slot, the node's length stands in front of the node.
pub const NODE: usize = 4;
pub const LONGEST_NODE: usize = 2_480;
pub const LONGEST_KEY: usize = 288;
/// From this length on, a key's length takes four bytes more.
pub const LONG: usize = 255;
pub const ORDER: usize = 8;
pub const LEAST: usize = 4;
pub const DEEPEST: u32 = 7;
const MOST_SLOTS: u32 = 65_535;

pub fn u32_at(bytes: &[u8], at: usize) -> u32 {
    u32::from_le_bytes(bytes[at..at + 4].try_into().expect("four bytes"))
}

pub fn u64_at(bytes: &[u8], at: usize) -> u64 {
    u64::from_le_bytes(bytes[at..at + 8].try_into().expect("eight bytes"))
}

pub fn put_u32(bytes: &mut [u8], at: usize, number: u32) {
    bytes[at..at + 4].copy_from_slice(&number.to_le_bytes());
}

pub fn put_u64(bytes: &mut [u8], at: usize, number: u64) {
    bytes[at..at + 8].copy_from_slice(&number.to_le_bytes());
}

#[derive(Clone, Copy)]
pub struct Header {
    pub root: u64,
    pub depth: u32,
    pub count: u32,
    pub first_free: u32,
}

impl Header {
    /// Refusal 1 for bytes that have not a store's size.
    pub fn of(store: &[u8]) -> Answer<Header> {
        let bytes: &[u8; HEADER] = store.first_chunk().ok_or(number::NOT_STORE)?;
        let header = Header {
            root: u64_at(bytes, 0),
            depth: u32_at(bytes, 8),
            count: u32_at(bytes, 12),
            first_free: u32_at(bytes, 16),
        };
        let fits = (1..=MOST_SLOTS).contains(&header.count)
            && store.len() == size_of_store(header.count)
            && u32_at(bytes, 20) == 0;
        if fits {
            Ok(header)
        } else {
            Err(number::NOT_STORE)
        }
    }

    /// The bytes of a slot, where the number names one.
    #[inline]
    pub fn slot<'a>(&self, store: &'a [u8], slot: u64) -> Answer<&'a [u8]> {
        if slot < 1 || u64::from(self.count) < slot {
            return Err(number::FAILS);
        }
        Ok(&store[start_of(slot)..][..SLOT])
    }
}

pub fn size_of_store(count: u32) -> usize {
    HEADER + SLOT * count as usize
}

pub fn mark_words(count: u32) -> usize {
    count.div_ceil(64) as usize
}

/// Where a slot begins.
pub fn start_of(slot: u64) -> usize {
    HEADER + SLOT * (slot as usize - 1)
}

/// The bytes of the node in a slot.
#[inline]
pub fn node_in(slot: &[u8]) -> Answer<&[u8]> {
    let len = u32_at(slot, 0) as usize;
    if (8..=LONGEST_NODE).contains(&len) {
        Ok(&slot[NODE..NODE + len])
    } else {
        Err(number::FAILS)
    }
}

/// Makes the bytes an empty store.
pub fn format(store: &mut [u8], count: u32) -> Answer<()> {
    if !(1..=MOST_SLOTS).contains(&count) || store.len() != size_of_store(count) {
        return Err(number::NOT_STORE);
    }
    store.fill(0);
    put_u32(store, 12, count);
    put_u32(store, 16, 1);
    for slot in 1..count {
        put_u32(store, start_of(slot.into()) + 4, slot + 1);
    }
    Ok(())
}
