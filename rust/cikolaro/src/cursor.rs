//! A cursor over the entries of a store.

use std::fmt;

use crate::error::done;
use crate::raw::{self, Answer, Lent};
use crate::{Refusal, Store, LONGEST_KEY};

const START: u32 = 0;
const END: u32 = 1;
const AT: u32 = 2;

/// A place among the keys. It holds its key itself and borrows no store, so the store may change between two steps: a step goes on
/// from the key, wherever its entry went.
///
/// ```
/// use cikolaro::{Batch, Cursor, Store};
///
/// let mut store = Store::new(4)?;
/// store.apply(Batch::new().set(b"a", 1).set(b"c", 3))?;
///
/// let mut cursor = Cursor::start();
/// assert_eq!(cursor.next(&store)?.unwrap().key(), b"a");
/// store.apply(Batch::new().remove(b"a").set(b"b", 2))?;
/// assert_eq!(cursor.next(&store)?.unwrap().key(), b"b");
/// assert_eq!(cursor.prev(&store)?, None);
///
/// let mut cursor = Cursor::seek(b"bb")?;
/// assert_eq!(cursor.next(&store)?.unwrap().value, 3);
/// # Ok::<(), cikolaro::Error>(())
/// ```
#[derive(Clone, PartialEq, Eq)]
pub struct Cursor {
    lent: Lent,
}

/// Where a cursor is.
#[derive(Clone, Copy, Debug, PartialEq, Eq)]
pub enum Place<'a> {
    /// Before all keys.
    Start,
    /// Behind all keys.
    End,
    /// At the entry of this key: a step in either direction leaves it.
    At(&'a [u8]),
    /// Sought this key: a step in either direction may answer it.
    Seeked(&'a [u8]),
}

/// A key and its value.
#[derive(Clone, PartialEq, Eq)]
pub struct Entry {
    length: usize,
    bytes: [u8; LONGEST_KEY],
    pub value: u64,
}

impl Entry {
    pub fn key(&self) -> &[u8] {
        &self.bytes[..self.length]
    }
}

impl fmt::Debug for Entry {
    fn fmt(&self, f: &mut fmt::Formatter<'_>) -> fmt::Result {
        f.debug_struct("Entry").field("key", &self.key()).field("value", &self.value).finish()
    }
}

impl fmt::Debug for Cursor {
    fn fmt(&self, f: &mut fmt::Formatter<'_>) -> fmt::Result {
        f.debug_tuple("Cursor").field(&self.place()).finish()
    }
}

impl Cursor {
    fn at_kind(kind: u32) -> Cursor {
        Cursor { lent: Lent { kind, length: 0, key: [0; LONGEST_KEY] } }
    }

    /// Before all keys.
    pub fn start() -> Cursor {
        Cursor::at_kind(START)
    }

    /// Behind all keys.
    pub fn end() -> Cursor {
        Cursor::at_kind(END)
    }

    /// At a key, which need not be there: refused only where it is over 288 bytes.
    pub fn seek(key: &[u8]) -> Result<Cursor, Refusal> {
        let mut cursor = Cursor::start();
        done(raw::seek(key, &mut cursor.lent))?;
        Ok(cursor)
    }

    /// Moves this cursor as [`Cursor::seek`] makes one; where it is refused the cursor stays.
    pub fn move_to(&mut self, key: &[u8]) -> Result<(), Refusal> {
        done(raw::seek(key, &mut self.lent))
    }

    pub fn place(&self) -> Place<'_> {
        let key = &self.lent.key[..self.lent.length];
        match self.lent.kind {
            START => Place::Start,
            END => Place::End,
            AT => Place::At(key),
            _ => Place::Seeked(key),
        }
    }

    /// The next entry; none moves the cursor to End.
    #[allow(clippy::should_implement_trait)]
    pub fn next<B: AsRef<[u8]>>(&mut self, store: &Store<B>) -> Result<Option<Entry>, Refusal> {
        let answer = raw::forward(store.bytes(), &mut self.lent);
        self.entry(answer)
    }

    /// The entry before; none moves the cursor to Start.
    pub fn prev<B: AsRef<[u8]>>(&mut self, store: &Store<B>) -> Result<Option<Entry>, Refusal> {
        let answer = raw::backward(store.bytes(), &mut self.lent);
        self.entry(answer)
    }

    fn entry(&self, answer: Answer) -> Result<Option<Entry>, Refusal> {
        done(answer.number)?;
        Ok(answer.value.map(|value| Entry { length: self.lent.length, bytes: self.lent.key, value }))
    }
}

/// The entries from a cursor on, in one direction. A refusal is handed out once and ends it.
pub struct Entries<'a, B> {
    store: &'a Store<B>,
    cursor: Cursor,
    back: bool,
    ended: bool,
}

impl<'a, B: AsRef<[u8]>> Entries<'a, B> {
    pub fn forward(store: &'a Store<B>, cursor: Cursor) -> Entries<'a, B> {
        Entries { store, cursor, back: false, ended: false }
    }

    pub fn backward(store: &'a Store<B>, cursor: Cursor) -> Entries<'a, B> {
        Entries { store, cursor, back: true, ended: false }
    }

    /// Where it is.
    pub fn cursor(&self) -> &Cursor {
        &self.cursor
    }
}

impl<B: AsRef<[u8]>> Iterator for Entries<'_, B> {
    type Item = Result<Entry, Refusal>;

    fn next(&mut self) -> Option<Self::Item> {
        if self.ended {
            return None;
        }
        let stepped = if self.back { self.cursor.prev(self.store) } else { self.cursor.next(self.store) };
        self.ended = !matches!(stepped, Ok(Some(_)));
        stepped.transpose()
    }
}

impl<B: AsRef<[u8]>> std::iter::FusedIterator for Entries<'_, B> {}
