//! A batch's records.

use super::codec::compare;
use super::layout::LONGEST_KEY;
use super::{number, Answer};

const HEAD: usize = 11;
const MOST: usize = 65_535;
pub const SET: u8 = 1;
const DEREFERENCE: u8 = 2;

#[derive(Clone, Copy)]
pub struct Record<'a> {
    pub kind: u8,
    pub value: u64,
    pub key: &'a [u8],
}

impl<'a> Record<'a> {
    /// The record at the front of records that are fine, and what stands behind it.
    #[inline]
    pub fn first(records: &'a [u8]) -> Option<(Record<'a>, &'a [u8])> {
        let (head, rest) = records.split_first_chunk::<HEAD>()?;
        let (key, rest) = rest.split_at_checked(key_len(head))?;
        Some((Record { kind: head[0], value: value(head), key }, rest))
    }
}

fn key_len(head: &[u8; HEAD]) -> usize {
    u16::from_le_bytes([head[1], head[2]]).into()
}

fn value(head: &[u8; HEAD]) -> u64 {
    u64::from_le_bytes(*head.last_chunk().expect("eight bytes"))
}

/// The first refusal from the front, if any.
pub fn check(records: &[u8]) -> Answer<()> {
    let mut before: &[u8] = &[];
    let mut rest = records;
    let mut count = 0;
    while !rest.is_empty() {
        if count == MOST {
            return Err(number::TOO_MANY);
        }
        let (head, behind) = rest.split_first_chunk::<HEAD>().ok_or(number::SHORT)?;
        if !(SET..=DEREFERENCE).contains(&head[0]) {
            return Err(number::SHORT);
        }
        if LONGEST_KEY < key_len(head) {
            return Err(number::LONG_KEY);
        }
        if (value(head) == 0) != (head[0] == DEREFERENCE) {
            return Err(number::BAD_VALUE);
        }
        let (key, behind) = behind.split_at_checked(key_len(head)).ok_or(number::SHORT)?;
        if compare(key, before).is_lt() {
            return Err(number::FALLS);
        }
        (before, rest) = (key, behind);
        count += 1;
    }
    Ok(())
}
