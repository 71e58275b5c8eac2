//! Node bytes with flaws that only the strict reading minds, alone and beside
//! others.

use crate::model::codec::{add_separator, MOST_SEPARATORS};
use crate::nodes::{add_long_separator, address};
use crate::random::Random;

/// What is wrong with a separator that is all there.
#[derive(Clone, Copy)]
pub enum Flaw {
    /// A u32 length behind 0xFF where one byte would do: 18.
    LongSize,
    /// The value 0: 19.
    Zero,
    /// Both: 18 comes first.
    ZeroLongSize,
    /// The value 0 before a key over 288 bytes: 19 comes first.
    ZeroTooLong,
    /// A key over 288 bytes: 4, in the lenient reading too.
    TooLong,
}

impl Flaw {
    pub const ALL: [Flaw; 5] = [
        Flaw::LongSize,
        Flaw::Zero,
        Flaw::ZeroLongSize,
        Flaw::ZeroTooLong,
        Flaw::TooLong,
    ];

    fn length(self, random: &mut Random) -> usize {
        let short = random.below(7);
        let choices = match self {
            Flaw::LongSize | Flaw::ZeroLongSize => [short, short, short, 253, 254],
            Flaw::Zero => [short, short, 254, 255, 288],
            Flaw::ZeroTooLong | Flaw::TooLong => [289, 289, 290, 300, 300],
        };
        *random.pick(&choices)
    }

    /// Adds a separator with this flaw.
    pub fn add(self, bytes: &mut Vec<u8>, random: &mut Random) {
        let length = self.length(random);
        let key = random.bytes(length);
        let value = match self {
            Flaw::LongSize | Flaw::TooLong => address(random),
            Flaw::Zero | Flaw::ZeroLongSize | Flaw::ZeroTooLong => 0,
        };
        match self {
            Flaw::LongSize | Flaw::ZeroLongSize => add_long_separator(bytes, &key, value),
            Flaw::Zero | Flaw::ZeroTooLong | Flaw::TooLong => add_separator(bytes, &key, value),
        }
    }
}

/// Node bytes with so many separators, flaws at those that are named.
pub fn flawed(count: usize, flaws: &[(usize, Flaw)], random: &mut Random) -> Vec<u8> {
    let mut bytes = Vec::new();
    for at in 0..count {
        add_child(&mut bytes, random);
        match flaws.iter().find(|(flawed, _)| *flawed == at) {
            Some((_, flaw)) => flaw.add(&mut bytes, random),
            None => add_short(&mut bytes, random),
        }
    }
    add_child(&mut bytes, random);
    bytes
}

fn add_child(bytes: &mut Vec<u8>, random: &mut Random) {
    let child = if random.percent(50) {
        0
    } else {
        address(random)
    };
    bytes.extend(child.to_le_bytes());
}

/// A separator in standard form.
fn add_short(bytes: &mut Vec<u8>, random: &mut Random) {
    let length = random.below(7);
    let key = random.bytes(length);
    add_separator(bytes, &key, address(random));
}

/// Bytes with any flaws, now and then cut, or with bytes behind.
pub fn any_flawed(random: &mut Random) -> Vec<u8> {
    let count = random.between(0, MOST_SEPARATORS);
    let mut flaws = Vec::new();
    for at in 0..count {
        if random.percent(10) {
            flaws.push((at, *random.pick(&Flaw::ALL)));
        }
    }
    let mut bytes = flawed(count, &flaws, random);
    match random.below(4) {
        0 => bytes.truncate(random.below(bytes.len())),
        1 => add_behind(&mut bytes, random),
        _ => (),
    }
    bytes
}

/// 1 to 30 bytes behind, zeros or any.
pub fn add_behind(bytes: &mut Vec<u8>, random: &mut Random) {
    let more = random.between(1, 30);
    if random.percent(50) {
        bytes.extend(vec![0; more]);
    } else {
        bytes.extend(random.bytes(more));
    }
}
