//! 01's layout, written by hand: nodes in standard form, slots, the header.

pub const HEADER: usize = 24;
pub const SLOT: usize = 2560;

/// A key and its value address.
pub type Pair = (Vec<u8>, u64);

/// Where a slot begins.
pub fn start_of(slot: u64) -> usize {
    HEADER + SLOT * (slot as usize - 1)
}

/// Where the bytes of a slot's node begin.
pub fn node_of(slot: u64) -> usize {
    start_of(slot) + 4
}

pub fn put(buffer: &mut [u8], at: usize, bytes: &[u8]) {
    buffer[at..at + bytes.len()].copy_from_slice(bytes);
}

pub fn put_u32(buffer: &mut [u8], at: usize, number: u32) {
    put(buffer, at, &number.to_le_bytes());
}

pub fn put_u64(buffer: &mut [u8], at: usize, number: u64) {
    put(buffer, at, &number.to_le_bytes());
}

/// A value address, the length and the key.
pub fn add_separator(bytes: &mut Vec<u8>, key: &[u8], value: u64) {
    bytes.extend(value.to_le_bytes());
    if key.len() < 255 {
        bytes.push(key.len() as u8);
    } else {
        bytes.push(255);
        bytes.extend((key.len() as u32).to_le_bytes());
    }
    bytes.extend(key);
}

/// A node in standard form; without children it is a leaf.
pub fn node(children: &[u64], pairs: &[Pair]) -> Vec<u8> {
    let child = |i: usize| children.get(i).copied().unwrap_or(0).to_le_bytes();
    let mut bytes = child(0).to_vec();
    for (i, (key, value)) in pairs.iter().enumerate() {
        add_separator(&mut bytes, key, *value);
        bytes.extend(child(i + 1));
    }
    bytes
}

/// Makes the slot a used one.
pub fn put_node(buffer: &mut [u8], slot: u64, bytes: &[u8]) {
    let start = start_of(slot);
    buffer[start..start + SLOT].fill(0);
    put_u32(buffer, start, bytes.len() as u32);
    put(buffer, start + 4, bytes);
}

/// Makes these slots the free chain, in this order.
pub fn put_chain(buffer: &mut [u8], slots: &[u64]) {
    put_u32(buffer, 16, slots.first().map_or(0, |slot| *slot as u32));
    for (i, slot) in slots.iter().enumerate() {
        let start = start_of(*slot);
        buffer[start..start + SLOT].fill(0);
        put_u32(
            buffer,
            start + 4,
            slots.get(i + 1).map_or(0, |next| *next as u32),
        );
    }
}

/// A header without a root, and slots of zeros.
pub fn blank(count: u32) -> Vec<u8> {
    let mut buffer = vec![0; HEADER + SLOT * count as usize];
    put_u32(&mut buffer, 12, count);
    buffer
}

pub fn formatted(count: u32) -> Vec<u8> {
    let mut buffer = blank(count);
    put_chain(&mut buffer, &(1..=count.into()).collect::<Vec<_>>());
    buffer
}
