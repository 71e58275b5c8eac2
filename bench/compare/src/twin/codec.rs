//! Node bytes: read with every test that the rules ask for, leniently or strictly, and written in standard form.

use super::layout::{LONG, LONGEST_KEY, ORDER};
use super::{number, Answer};
use std::cmp::Ordering;

/// A separator as it stands in the bytes.
#[derive(Clone, Copy)]
pub struct Separator<'a> {
    pub value: u64,
    pub key: &'a [u8],
}

/// The child at the front of the rest.
#[inline(always)]
pub fn take_child(rest: &mut &[u8]) -> Answer<u64> {
    let (child, behind) = rest.split_first_chunk::<8>().ok_or(number::SHORT_CHILD)?;
    *rest = behind;
    Ok(u64::from_le_bytes(*child))
}

/// The separator at the front of the rest, or none where the node ends: the lenient reading.
#[inline(always)]
fn take_separator<'a>(rest: &mut &'a [u8]) -> Answer<Option<Separator<'a>>> {
    if rest.is_empty() {
        return Ok(None);
    }
    let (head, mut behind) = rest.split_first_chunk::<9>().ok_or(number::SHORT_HEAD)?;
    let value = u64::from_le_bytes(*head.first_chunk().expect("eight bytes"));
    let mut len = usize::from(head[8]);
    if len == LONG {
        let size = behind.split_first_chunk::<4>().ok_or(number::SHORT_SIZE)?;
        len = u32::from_le_bytes(*size.0) as usize;
        behind = size.1;
    }
    let (key, behind) = behind.split_at_checked(len).ok_or(number::SHORT_KEY)?;
    if value == 0 {
        return Ok(None);
    }
    if LONGEST_KEY < len {
        return Err(number::LONG_KEY);
    }
    *rest = behind;
    Ok(Some(Separator { value, key }))
}

/// The separator at the front of the rest, which has to be in standard form. Who asks for that answers every refusal alike.
#[inline(always)]
pub fn take_standard<'a>(rest: &mut &'a [u8]) -> Answer<Separator<'a>> {
    let (head, mut behind) = rest.split_first_chunk::<9>().ok_or(number::FAILS)?;
    let value = u64::from_le_bytes(*head.first_chunk().expect("eight bytes"));
    let mut len = usize::from(head[8]);
    if len == LONG {
        let size = behind.split_first_chunk().ok_or(number::FAILS)?;
        len = u32::from_le_bytes(*size.0) as usize;
        behind = size.1;
        if !(LONG..=LONGEST_KEY).contains(&len) {
            return Err(number::FAILS);
        }
    }
    let (key, behind) = behind.split_at_checked(len).ok_or(number::FAILS)?;
    if value == 0 {
        return Err(number::FAILS);
    }
    *rest = behind;
    Ok(Separator { value, key })
}

/// The order of keys.
#[inline(always)]
pub fn compare(left: &[u8], right: &[u8]) -> Ordering {
    left.cmp(right)
}

/// A node whose keys stay where they stand.
pub struct Places<'a> {
    pub count: usize,
    pub children: [u64; ORDER + 1],
    pub values: [u64; ORDER],
    pub keys: [&'a [u8]; ORDER],
}

/// The lenient reading.
pub fn read(bytes: &[u8]) -> Answer<Places<'_>> {
    let mut places = Places { count: 0, children: [0; ORDER + 1], values: [0; ORDER], keys: [&[]; ORDER] };
    let mut rest = bytes;
    places.children[0] = take_child(&mut rest)?;
    while places.count < ORDER {
        let Some(separator) = take_separator(&mut rest)? else { break };
        places.values[places.count] = separator.value;
        places.keys[places.count] = separator.key;
        places.count += 1;
        places.children[places.count] = take_child(&mut rest)?;
    }
    Ok(places)
}

/// A node in memory, its keys in one flat array, each in a place of 288 bytes.
pub struct Node {
    pub count: usize,
    pub children: [u64; ORDER + 1],
    pub values: [u64; ORDER],
    pub lens: [usize; ORDER],
    pub keys: [u8; LONGEST_KEY * ORDER],
}

impl Node {
    pub fn of(places: &Places) -> Node {
        let mut node = Node {
            count: places.count,
            children: places.children,
            values: places.values,
            lens: [0; ORDER],
            keys: [0; LONGEST_KEY * ORDER],
        };
        for (at, key) in places.keys[..places.count].iter().enumerate() {
            node.lens[at] = key.len();
            node.keys[LONGEST_KEY * at..][..key.len()].copy_from_slice(key);
        }
        node
    }

    /// How long standard form is, or the refusal for what has none.
    fn size(&self) -> Answer<usize> {
        let values = self.values.get(..self.count).ok_or(number::TOO_FULL)?;
        let lens = &self.lens[..self.count];
        if lens.iter().any(|&len| LONGEST_KEY < len) {
            return Err(number::LONG_KEY);
        }
        if values.contains(&0) {
            return Err(number::BAD_VALUE);
        }
        Ok(8 + lens.iter().map(|&len| 8 + size_bytes(len) + len + 8).sum::<usize>())
    }

    /// Standard form to the front of the destination; how long it is.
    pub fn write(&self, dst: &mut [u8]) -> Answer<usize> {
        let size = self.size()?;
        let mut rest = dst.get_mut(..size).ok_or(number::NO_SPACE)?;
        put(&mut rest, &self.children[0].to_le_bytes());
        for at in 0..self.count {
            put(&mut rest, &self.values[at].to_le_bytes());
            put_size(&mut rest, self.lens[at]);
            put(&mut rest, &self.keys[LONGEST_KEY * at..][..self.lens[at]]);
            put(&mut rest, &self.children[at + 1].to_le_bytes());
        }
        Ok(size)
    }
}

/// How many bytes a key's length takes.
pub fn size_bytes(len: usize) -> usize {
    if len < LONG {
        1
    } else {
        5
    }
}

#[inline(always)]
fn put(rest: &mut &mut [u8], bytes: &[u8]) {
    let (front, behind) = std::mem::take(rest).split_at_mut(bytes.len());
    front.copy_from_slice(bytes);
    *rest = behind;
}

#[inline(always)]
pub fn put_size(rest: &mut &mut [u8], len: usize) {
    if len < LONG {
        put(rest, &[len as u8]);
    } else {
        put(rest, &[LONG as u8]);
        put(rest, &(len as u32).to_le_bytes());
    }
}
