//! Node bytes, as 01 tells them.

use original::btree::glue::Pair;
use std::ops::Range;

/// "Here ORDER is 8, ORDER_CHILD 9", "Keys here: 0 to 288 bytes".
pub const MOST_SEPARATORS: usize = 8;
pub const MOST_CHILDREN: usize = 9;
pub const LONGEST_KEY: usize = 288;

/// Numbers of 01's table that reading and writing give.
pub const KEY_TOO_LONG: u8 = 4;
pub const VALUE_ZERO: u8 = 5;
pub const CHILD_CUT: u8 = 11;
pub const HEAD_CUT: u8 = 12;
pub const SIZE_CUT: u8 = 13;
pub const KEY_CUT: u8 = 14;
pub const TOO_MANY: u8 = 16;

/// Numbers that the strict reading adds: "a long size below 255, a separator
/// with value 0, and bytes after the end of the node".
pub const LONG_SIZE_SMALL: u8 = 18;
pub const SEPARATOR_ZERO: u8 = 19;
pub const BYTES_BEHIND: u8 = 20;

/// The length byte behind which a u32 length follows: "from 255 on".
const LONG: u8 = 0xFF;
const SHORTEST_LONG: usize = 255;

/// A separator that was read: its key as a part of the bytes.
#[derive(Clone, Debug, PartialEq, Eq)]
pub struct Separator {
    pub value: u64,
    pub key: Range<usize>,
}

/// Bytes that were read: one more child than separators.
#[derive(Clone, Debug, Default, PartialEq, Eq)]
pub struct Reading {
    pub children: Vec<u64>,
    pub separators: Vec<Separator>,
}

/// A reading that ends in a refusal: the number, and how far it had come.
#[derive(Clone, Debug, PartialEq, Eq)]
pub struct Refused {
    pub number: u8,
    /// Where the reading stood.
    pub at: usize,
    /// What was read before.
    pub before: Reading,
}

/// A strict reading that ends in a refusal. It gives no node.
#[derive(Clone, Debug, PartialEq, Eq)]
pub struct StrictRefused {
    pub number: u8,
    /// Where the refused child or separator begins; for 20 the first byte
    /// behind the ninth child.
    pub place: usize,
}

struct Reader<'a> {
    bytes: &'a [u8],
    at: usize,
}

impl<'a> Reader<'a> {
    fn take(&mut self, count: usize, number: u8) -> Result<&'a [u8], u8> {
        let rest = &self.bytes[self.at..];
        if rest.len() < count {
            return Err(number);
        }
        self.at += count;
        Ok(&rest[..count])
    }

    fn child(&mut self) -> Result<u64, u8> {
        self.take(8, CHILD_CUT).map(little_endian)
    }

    /// "Reading a separator: 12, 13, 14, end at value 0, 4."
    fn separator(&mut self) -> Result<Option<Separator>, u8> {
        let head = self.take(9, HEAD_CUT)?;
        let value = little_endian(&head[..8]);
        let length = match head[8] {
            LONG => little_endian(self.take(4, SIZE_CUT)?) as usize,
            short => short as usize,
        };
        let start = self.at;
        self.take(length, KEY_CUT)?;
        if value == 0 {
            return Ok(None);
        }
        if length > LONGEST_KEY {
            return Err(KEY_TOO_LONG);
        }
        let key = start..self.at;
        Ok(Some(Separator { value, key }))
    }

    /// "A child; stop after the ninth. Then, if no byte is left, stop. A
    /// separator whose value address is 0 ends the node."
    fn node(&mut self, node: &mut Reading) -> Result<(), u8> {
        loop {
            node.children.push(self.child()?);
            if node.children.len() == MOST_CHILDREN || self.at == self.bytes.len() {
                return Ok(());
            }
            match self.separator()? {
                Some(separator) => node.separators.push(separator),
                None => return Ok(()),
            }
        }
    }
}

/// Reads a node: "The lenient reading stays, being the Rust's" (C-16).
pub fn read(bytes: &[u8]) -> Result<Reading, Refused> {
    let mut reader = Reader { bytes, at: 0 };
    let mut node = Reading::default();
    match reader.node(&mut node) {
        Ok(()) => Ok(node),
        Err(number) => Err(Refused {
            number,
            at: reader.at,
            before: node,
        }),
    }
}

/// Reads a node strictly, from the front, separator by separator: "two byte
/// strings read as the same node only if they are the same bytes". It ends only
/// where no byte is left behind a child, so the place of an accepted reading is
/// the number of bytes.
pub fn read_strict(bytes: &[u8]) -> Result<Reading, StrictRefused> {
    let refused = |place| move |number| StrictRefused { number, place };
    let mut node = Reading::default();
    let mut place = 0;
    loop {
        let child = strict_child(&bytes[place..]).map_err(refused(place))?;
        node.children.push(child);
        place += 8;
        if place == bytes.len() {
            return Ok(node);
        }
        if node.children.len() == MOST_CHILDREN {
            return Err(refused(place)(BYTES_BEHIND));
        }
        let separator = strict_separator(&bytes[place..]);
        let (value, key) = separator.map_err(refused(place))?;
        let key = place + key.start..place + key.end;
        place = key.end;
        node.separators.push(Separator { value, key });
    }
}

fn strict_child(rest: &[u8]) -> Result<u64, u8> {
    let child = rest.first_chunk().ok_or(CHILD_CUT)?;
    Ok(u64::from_le_bytes(*child))
}

/// A separator's value, and where its key stands behind its first byte. "Name
/// the order after 11 to 14": 12, 13, 14, then 18, 19, 4.
fn strict_separator(rest: &[u8]) -> Result<(u64, Range<usize>), u8> {
    let head = rest.first_chunk::<9>().ok_or(HEAD_CUT)?;
    let [value @ .., size] = *head;
    let value = u64::from_le_bytes(value);
    let is_long = size == LONG;
    let key = if is_long {
        let length = rest[9..].first_chunk().ok_or(SIZE_CUT)?;
        13..13 + u32::from_le_bytes(*length) as usize
    } else {
        9..9 + usize::from(size)
    };
    if rest.len() < key.end {
        return Err(KEY_CUT);
    }
    if is_long && key.len() < SHORTEST_LONG {
        return Err(LONG_SIZE_SMALL);
    }
    if value == 0 {
        return Err(SEPARATOR_ZERO);
    }
    if key.len() > LONGEST_KEY {
        return Err(KEY_TOO_LONG);
    }
    Ok((value, key))
}

/// Writes a node in standard form. Children that aren't given are 0; those
/// past the separators plus one are dropped.
pub fn write(children: &[u64], separators: &[Pair]) -> Result<Vec<u8>, u8> {
    if separators.len() > MOST_SEPARATORS {
        return Err(TOO_MANY);
    }
    if separators.iter().any(|(key, _)| key.len() > LONGEST_KEY) {
        return Err(KEY_TOO_LONG);
    }
    if separators.iter().any(|(_, value)| *value == 0) {
        return Err(VALUE_ZERO);
    }
    let child = |at: usize| children.get(at).copied().unwrap_or(0).to_le_bytes();
    let mut bytes = child(0).to_vec();
    for (at, (key, value)) in separators.iter().enumerate() {
        add_separator(&mut bytes, key, *value);
        bytes.extend(child(at + 1));
    }
    Ok(bytes)
}

/// "A key of 0 to 254 bytes has its length in that byte; from 255 on, the byte
/// is 0xFF and a u32 length follows."
pub fn add_separator(bytes: &mut Vec<u8>, key: &[u8], value: u64) {
    bytes.extend(value.to_le_bytes());
    if key.len() <= 254 {
        bytes.push(key.len() as u8);
    } else {
        bytes.push(LONG);
        bytes.extend((key.len() as u32).to_le_bytes());
    }
    bytes.extend(key);
}

fn little_endian(bytes: &[u8]) -> u64 {
    bytes
        .iter()
        .rev()
        .fold(0, |number, &byte| number << 8 | u64::from(byte))
}
