//! Addresses.

use std::fmt;

/// An address. The original keeps header, nodes and values in one space of
/// numbers; here the header's place is apart, so that slots can be numbered
/// from 1 and values can be any number.
#[derive(Clone, Copy, Debug, PartialEq, Eq)]
pub enum Address {
    Header,
    Number(u64),
}

impl Address {
    /// The original makes one address from parts: the header's.
    pub const fn new(_offset: u64, _size_tier: u8) -> Self {
        Address::Header
    }

    pub const fn from_u64(number: u64) -> Self {
        Address::Number(number)
    }

    pub fn as_u64(&self) -> u64 {
        match self {
            Address::Number(number) => *number,
            Address::Header => unreachable!("no node names the header"),
        }
    }

    pub fn size_tier(&self) -> u8 {
        0
    }
}

impl fmt::Display for Address {
    fn fmt(&self, f: &mut fmt::Formatter<'_>) -> fmt::Result {
        match self {
            Address::Header => write!(f, "header"),
            Address::Number(number) => write!(f, "{number}"),
        }
    }
}

/// What became of a planned write. The original only asks whether there is one.
pub enum PlanOutcome {
    Written,
}
