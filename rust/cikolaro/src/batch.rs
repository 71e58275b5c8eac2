//! A batch of changes, in the bytes that the store takes.

/// Changes to be applied together. They may be given in any order; of several changes of one key the last one counts.
///
/// ```
/// use cikolaro::{Batch, Store};
///
/// let mut batch = Batch::new();
/// batch.set(b"k", 1).remove(b"k").set(b"k", 3).set(b"a", 2);
///
/// let mut store = Store::new(1)?;
/// store.apply(&batch)?;
/// assert_eq!(store.get(b"k")?, Some(3));
/// # Ok::<(), cikolaro::Error>(())
/// ```
#[derive(Clone, Debug, Default, PartialEq, Eq)]
pub struct Batch {
    changes: Vec<(Vec<u8>, Option<u64>)>,
}

impl Batch {
    pub fn new() -> Batch {
        Batch::default()
    }

    /// The key shall have this value. The store refuses the value 0 and keys over 288 bytes when the batch is applied.
    pub fn set(&mut self, key: impl Into<Vec<u8>>, value: u64) -> &mut Batch {
        self.changes.push((key.into(), Some(value)));
        self
    }

    /// The key shall be gone; it need not be there.
    pub fn remove(&mut self, key: impl Into<Vec<u8>>) -> &mut Batch {
        self.changes.push((key.into(), None));
        self
    }

    pub fn len(&self) -> usize {
        self.changes.len()
    }

    pub fn is_empty(&self) -> bool {
        self.changes.is_empty()
    }

    pub fn clear(&mut self) {
        self.changes.clear();
    }

    /// The changes of another batch behind these.
    ///
    /// ```
    /// use cikolaro::{lines, Batch};
    ///
    /// let mut batch = Batch::new();
    /// batch.set(b"a", 1).append(lines::parse(b"del\t62\n").unwrap());
    /// assert_eq!(batch.len(), 2);
    /// ```
    pub fn append(&mut self, other: Batch) -> &mut Batch {
        self.changes.extend(other.changes);
        self
    }

    /// The changes that records say which the proved parser has written: none is cut short.
    pub(crate) fn of_records(records: &[u8]) -> Batch {
        let mut batch = Batch::new();
        let mut rest = records;
        while let [kind, low, high, behind @ ..] = rest {
            let (value, behind) = behind.split_first_chunk().expect("a value");
            let (key, behind) = behind.split_at(usize::from(u16::from_le_bytes([*low, *high])));
            batch.changes.push((key.to_vec(), (*kind == 1).then_some(u64::from_le_bytes(*value))));
            rest = behind;
        }
        batch
    }

    /// The key, where there is one change.
    pub(crate) fn only_key(mut self) -> Option<Vec<u8>> {
        let (key, _) = self.changes.pop()?;
        self.changes.is_empty().then_some(key)
    }

    /// The records as 01 has them, sorted by key. Changes of one key stay in the order in which they were given.
    pub fn encode(&self) -> Vec<u8> {
        let mut order: Vec<&(Vec<u8>, Option<u64>)> = self.changes.iter().collect();
        order.sort_by(|a, b| a.0.cmp(&b.0));
        encode(order.into_iter().map(|(key, value)| (key.as_slice(), *value)))
    }

    /// The records in the order in which they were given; the store refuses a key below the one before.
    pub fn encode_as_given(&self) -> Vec<u8> {
        encode(self.changes.iter().map(|(key, value)| (key.as_slice(), *value)))
    }
}

fn encode<'a>(changes: impl Iterator<Item = (&'a [u8], Option<u64>)>) -> Vec<u8> {
    let mut bytes = Vec::new();
    for (key, value) in changes {
        bytes.push(if value.is_some() { 1 } else { 2 });
        // A key that is too long for the field is over 288 bytes all the same, and refused.
        let length = u16::try_from(key.len()).unwrap_or(u16::MAX);
        bytes.extend(length.to_le_bytes());
        bytes.extend(value.unwrap_or(0).to_le_bytes());
        bytes.extend(key);
    }
    bytes
}
