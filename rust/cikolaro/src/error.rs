//! The refusals of 01 and 02.

use std::fmt;

/// Why something was refused: 01's numbers, and from 18 on 02's.
#[derive(Clone, Copy, Debug, PartialEq, Eq, Hash)]
#[repr(u32)]
pub enum Refusal {
    /// The buffer's size, the count or bytes 20 to 23 are not a store's.
    NotStore = 1,
    /// Too few mark words. This crate lends enough, so nothing here answers it.
    FewMarks = 2,
    /// A record cut short, or of an unknown kind.
    Short = 3,
    /// A key, or a cursor's length, over 288 bytes.
    LongKey = 4,
    /// A set, or a separator to be written, with value 0.
    BadValue = 5,
    /// A key below the one before.
    Falls = 6,
    /// A 65,536th record.
    TooMany = 7,
    /// The audit fails, or a walk meets a node that is bad or not in standard form.
    Fails = 8,
    /// Too few free slots.
    NoRoom = 9,
    /// The destination is too short for a node. This crate lends enough, so nothing here answers it.
    ShortDestination = 10,
    /// Node bytes: under 8 are left for a child.
    ShortChild = 11,
    /// Node bytes: under 9 are left for a separator's head, which is its value and the byte for its length.
    ShortHead = 12,
    /// Node bytes: under 4 are left for a length behind 0xFF.
    ShortSize = 13,
    /// Node bytes: a key is cut short.
    ShortKey = 14,
    /// A bad text line, or too much text.
    BadText = 15,
    /// More than 8 separators in a node that is to be written.
    TooManySeparators = 16,
    /// Node bytes, read strictly: 0xFF stands before a length below 255.
    LowSize = 18,
    /// Node bytes, read strictly: a separator has the value 0.
    ZeroValue = 19,
    /// Node bytes, read strictly: bytes follow the ninth child.
    BytesBehind = 20,
}

impl Refusal {
    /// All of them, by number.
    pub const ALL: [Refusal; 19] = [
        Refusal::NotStore,
        Refusal::FewMarks,
        Refusal::Short,
        Refusal::LongKey,
        Refusal::BadValue,
        Refusal::Falls,
        Refusal::TooMany,
        Refusal::Fails,
        Refusal::NoRoom,
        Refusal::ShortDestination,
        Refusal::ShortChild,
        Refusal::ShortHead,
        Refusal::ShortSize,
        Refusal::ShortKey,
        Refusal::BadText,
        Refusal::TooManySeparators,
        Refusal::LowSize,
        Refusal::ZeroValue,
        Refusal::BytesBehind,
    ];

    /// Its number.
    ///
    /// ```
    /// assert_eq!(cikolaro::Refusal::NoRoom.number(), 9);
    /// ```
    pub const fn number(self) -> u32 {
        self as u32
    }

    /// The refusal that has a number; none for 0 and for a number that is not here.
    pub fn from_number(number: u32) -> Option<Refusal> {
        Refusal::ALL.into_iter().find(|r| r.number() == number)
    }

    /// What it means, in a few words.
    pub const fn meaning(self) -> &'static str {
        match self {
            Refusal::NotStore => "not a store: size, slot count or reserved bytes are wrong",
            Refusal::FewMarks => "too few mark words",
            Refusal::Short => "a record is cut short or of an unknown kind",
            Refusal::LongKey => "a key is over 288 bytes",
            Refusal::BadValue => "a set has the value 0",
            Refusal::Falls => "a key is below the one before",
            Refusal::TooMany => "more than 65,535 records in one batch",
            Refusal::Fails => "the store fails its audit",
            Refusal::NoRoom => "no room: too few free slots",
            Refusal::ShortDestination => "the destination is too short for the node",
            Refusal::ShortChild => "under 8 bytes are left for a child",
            Refusal::ShortHead => "under 9 bytes are left for a separator's value and length",
            Refusal::ShortSize => "under 4 bytes are left for a length behind 0xFF",
            Refusal::ShortKey => "a key is cut short",
            Refusal::BadText => "a bad line, or more text than one batch takes",
            Refusal::TooManySeparators => "a node has more than 8 separators",
            Refusal::LowSize => "0xFF stands before a length below 255",
            Refusal::ZeroValue => "a separator has the value 0",
            Refusal::BytesBehind => "bytes follow the ninth child",
        }
    }
}

impl fmt::Display for Refusal {
    fn fmt(&self, f: &mut fmt::Formatter<'_>) -> fmt::Result {
        write!(f, "refused {}: {}", self.number(), self.meaning())
    }
}

impl std::error::Error for Refusal {}

/// A refusal, and how many records were applied before it: above 0 only with [`Refusal::NoRoom`].
#[derive(Clone, Copy, Debug, PartialEq, Eq)]
pub struct Error {
    pub refusal: Refusal,
    pub applied: usize,
}

impl From<Refusal> for Error {
    fn from(refusal: Refusal) -> Error {
        Error { refusal, applied: 0 }
    }
}

impl fmt::Display for Error {
    fn fmt(&self, f: &mut fmt::Formatter<'_>) -> fmt::Result {
        write!(f, "{} ({} records applied)", self.refusal, self.applied)
    }
}

impl std::error::Error for Error {}

/// Whether a number is 0; else the refusal that it is.
pub(crate) fn done(number: u32) -> Result<(), Refusal> {
    match number {
        0 => Ok(()),
        n => Err(Refusal::from_number(n).expect("every number that the proved functions answer is here")),
    }
}
