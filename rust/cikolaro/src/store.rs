//! A store in bytes that are owned or borrowed.

use crate::error::done;
use crate::lines::most_record_bytes;
use crate::{mark_words, raw, store_size, Batch, Cursor, Entries, Error, Refusal, MOST_SLOTS};

/// A store over its bytes: a `Vec<u8>`, or a borrowed `&mut [u8]`.
///
/// ```
/// use cikolaro::{store_size, Batch, Store};
///
/// let mut buffer = vec![0; store_size(3)];
/// let mut store = Store::format(&mut buffer[..], 3)?;
/// store.apply(Batch::new().set(b"key", 1))?;
/// drop(store);
///
/// let store = Store::open(buffer)?;
/// assert_eq!(store.get(b"key")?, Some(1));
/// # Ok::<(), cikolaro::Error>(())
/// ```
#[derive(Clone, Debug)]
pub struct Store<B> {
    bytes: B,
}

/// What an audit that passes reports.
#[derive(Clone, Debug, PartialEq, Eq)]
pub struct Audit {
    /// How many slots the tree reaches.
    pub reached: usize,
    marks: Vec<u64>,
}

impl Audit {
    /// Whether the tree reaches a slot. Slots are numbered from 1.
    pub fn is_reached(&self, slot: u32) -> bool {
        let Some(bit) = slot.checked_sub(1) else { return false };
        self.marks.get(bit as usize / 64).is_some_and(|word| word >> (bit % 64) & 1 == 1)
    }
}

impl Store<Vec<u8>> {
    /// A fresh store of so many slots, 1 to 65,535.
    pub fn new(count: u32) -> Result<Store<Vec<u8>>, Refusal> {
        // A count that is refused gets no buffer of its size.
        let size = if count <= MOST_SLOTS { store_size(count) } else { 0 };
        Store::format(vec![0; size], count)
    }
}

impl<B: AsRef<[u8]>> Store<B> {
    /// The store that the bytes hold, if they pass the audit.
    pub fn open(bytes: B) -> Result<Store<B>, Refusal> {
        let store = Store { bytes };
        store.audit()?;
        Ok(store)
    }

    /// The bytes as a store, whatever they hold: what is asked of them then is answered or refused, a walk that meets a node which is bad or
    /// not in standard form with 8.
    pub fn unaudited(bytes: B) -> Store<B> {
        Store { bytes }
    }

    /// The store's bytes.
    pub fn bytes(&self) -> &[u8] {
        self.bytes.as_ref()
    }

    /// The bytes back.
    pub fn into_bytes(self) -> B {
        self.bytes
    }

    /// The slot count in the header, 0 where there is no header.
    pub fn count(&self) -> u32 {
        self.bytes().get(12..16).map_or(0, |b| u32::from_le_bytes(b.try_into().expect("four bytes")))
    }

    /// 01's audit: refused with 1 or 8, or which slots the tree reaches.
    ///
    /// ```
    /// let store = cikolaro::Store::new(2)?;
    /// assert_eq!(store.audit()?.reached, 0);
    /// let mut bytes = store.into_bytes();
    /// bytes[100] = 1;
    /// assert_eq!(cikolaro::Store::open(bytes).unwrap_err(), cikolaro::Refusal::Fails);
    /// # Ok::<(), cikolaro::Refusal>(())
    /// ```
    pub fn audit(&self) -> Result<Audit, Refusal> {
        let mut marks = vec![0; mark_words(self.count().min(MOST_SLOTS))];
        let (number, reached) = raw::audit(self.bytes(), &mut marks);
        done(number)?;
        Ok(Audit { reached, marks })
    }

    /// The value of a key.
    pub fn get(&self, key: &[u8]) -> Result<Option<u64>, Refusal> {
        let answer = raw::lookup(self.bytes(), key);
        done(answer.number)?;
        Ok(answer.value)
    }

    /// All entries, keys rising.
    pub fn entries(&self) -> Entries<'_, B> {
        Entries::forward(self, Cursor::start())
    }

    /// All entries, keys falling.
    ///
    /// ```
    /// # use cikolaro::{Batch, Store};
    /// let mut store = Store::new(1)?;
    /// store.apply(Batch::new().set(b"a", 1).set(b"b", 2))?;
    /// let keys: Vec<_> = store.entries_back().map(|e| e.unwrap().key().to_vec()).collect();
    /// assert_eq!(keys, [b"b", b"a"]);
    /// # Ok::<(), cikolaro::Error>(())
    /// ```
    pub fn entries_back(&self) -> Entries<'_, B> {
        Entries::backward(self, Cursor::end())
    }

    /// The entries from a key on, keys rising.
    pub fn entries_from(&self, key: &[u8]) -> Result<Entries<'_, B>, Refusal> {
        Ok(Entries::forward(self, Cursor::seek(key)?))
    }

    /// The entries from a key down, keys falling.
    pub fn entries_back_from(&self, key: &[u8]) -> Result<Entries<'_, B>, Refusal> {
        Ok(Entries::backward(self, Cursor::seek(key)?))
    }
}

impl<B: AsRef<[u8]> + AsMut<[u8]>> Store<B> {
    /// An empty store in these bytes, whatever they held: refused where they haven't the size for the count.
    pub fn format(mut bytes: B, count: u32) -> Result<Store<B>, Refusal> {
        done(raw::format(bytes.as_mut(), count))?;
        Ok(Store { bytes })
    }

    /// Applies a batch, and says how many records it has. With [`Refusal::NoRoom`] the changes of the records counted in the error
    /// are applied; with any other refusal nothing has changed.
    ///
    /// ```
    /// # use cikolaro::{Batch, Refusal, Store};
    /// let mut store = Store::new(2)?;
    /// let mut batch = Batch::new();
    /// for key in 1..=9 {
    ///     batch.set([key], 1);
    /// }
    /// let error = store.apply(&batch).unwrap_err();
    /// assert_eq!((error.refusal, error.applied), (Refusal::NoRoom, 8));
    /// assert_eq!(store.entries().count(), 8);
    /// # Ok::<(), Refusal>(())
    /// ```
    pub fn apply(&mut self, batch: &Batch) -> Result<usize, Error> {
        self.apply_records(&batch.encode())
    }

    /// Applies records as 01 has them.
    pub fn apply_records(&mut self, records: &[u8]) -> Result<usize, Error> {
        let mut marks = vec![0; mark_words(self.count().min(MOST_SLOTS))];
        ran(raw::batch(self.bytes.as_mut(), &mut marks, records))
    }

    /// Runs house lines as one batch, in their order: refused with 15 for a bad line or too much text, else as [`Store::apply`] is.
    ///
    /// ```
    /// # use cikolaro::{Error, Refusal, Store};
    /// let mut store = Store::new(25)?;
    /// assert_eq!(store.run_lines(b"set\t61\t5\nset\t62\t7\n")?, 2);
    /// assert_eq!(store.get(b"b")?, Some(7));
    /// assert_eq!(store.run_lines(b"del\t61"), Err(Error { refusal: Refusal::BadText, applied: 0 }));
    /// # Ok::<(), Error>(())
    /// ```
    pub fn run_lines(&mut self, text: &[u8]) -> Result<usize, Error> {
        let mut marks = vec![0; mark_words(self.count().min(MOST_SLOTS))];
        let mut records = vec![0; most_record_bytes(text.len())];
        ran(raw::run_lines(self.bytes.as_mut(), &mut marks, &mut records, text))
    }
}

/// How many records were applied, where the number is 0.
fn ran((number, applied): (u32, usize)) -> Result<usize, Error> {
    match done(number) {
        Ok(()) => Ok(applied),
        Err(refusal) => Err(Error { refusal, applied }),
    }
}
