//! The one table: the header and the nodes, in memory; and the reader and
//! writer of bytes that the original lays its nodes out with.

use crate::{
    error::{Error, Result},
    log::{LogReader, LogWriter},
};
use std::cell::RefCell;
use std::collections::BTreeMap;

pub const MIN_ENTRY_SIZE: usize = 32;

pub type Value = Vec<u8>;

pub mod key {
    pub enum TableKey {
        NoHash,
    }

    pub enum TableKeyQuery<'a> {
        Check(#[allow(dead_code)] &'a TableKey),
        Fetch(#[allow(dead_code)] Option<&'a mut Vec<u8>>),
    }
}

/// Bytes with a place in them (the original's table.rs has the same, for more
/// kinds of storage).
pub struct Entry<B>(usize, B);

impl<B: AsRef<[u8]>> Entry<B> {
    pub fn new(bytes: B) -> Self {
        Entry(0, bytes)
    }

    pub fn check_remaining_len(&self, len: usize, error: impl Fn() -> Error) -> Result<()> {
        if self.0 + len > self.1.as_ref().len() {
            return Err(error());
        }
        Ok(())
    }

    pub fn offset(&self) -> usize {
        self.0
    }

    pub fn set_offset(&mut self, offset: usize) {
        self.0 = offset;
    }

    pub fn read_slice(&mut self, size: usize) -> &[u8] {
        let start = self.0;
        self.0 += size;
        &self.1.as_ref()[start..self.0]
    }

    pub fn read_u64(&mut self) -> u64 {
        u64::from_le_bytes(self.read_slice(8).try_into().expect("8 bytes"))
    }

    pub fn read_u32(&mut self) -> u32 {
        u32::from_le_bytes(self.read_slice(4).try_into().expect("4 bytes"))
    }
}

impl<B: AsRef<[u8]> + AsMut<[u8]>> Entry<B> {
    pub fn write_slice(&mut self, bytes: &[u8]) {
        let start = self.0;
        self.0 += bytes.len();
        self.1.as_mut()[start..self.0].copy_from_slice(bytes);
    }

    pub fn write_u64(&mut self, number: u64) {
        self.write_slice(&number.to_le_bytes());
    }

    pub fn write_u32(&mut self, number: u32) {
        self.write_slice(&number.to_le_bytes());
    }

    pub fn inner_mut(&mut self) -> &mut B {
        &mut self.1
    }
}

impl<B: AsRef<[u8]>> AsRef<[u8]> for Entry<B> {
    fn as_ref(&self) -> &[u8] {
        self.1.as_ref()
    }
}

/// How new nodes get their numbers.
#[derive(Clone, Copy, Debug)]
pub enum Numbering {
    /// 1, 2, 3, ... without end; a freed number isn't used again.
    AsTheyCome,
    /// As 01's slots: the first free one of a chain that begins as 1 to this
    /// count; a freed one becomes the first.
    Chain(u32),
}

#[derive(Debug)]
struct Contents {
    header: Option<Vec<u8>>,
    nodes: BTreeMap<u64, Vec<u8>>,
    /// Free numbers, the next one to be taken last.
    free: Vec<u64>,
    numbering: Numbering,
    last_fresh: u64,
}

impl Contents {
    fn take_number(&mut self) -> Result<u64> {
        match self.numbering {
            Numbering::AsTheyCome => {
                self.last_fresh += 1;
                Ok(self.last_fresh)
            }
            Numbering::Chain(_) => self.free.pop().ok_or(Error::NoRoom),
        }
    }
}

#[derive(Debug)]
pub struct ValueTable(RefCell<Contents>);

impl ValueTable {
    pub fn new(numbering: Numbering) -> Self {
        let free = match numbering {
            Numbering::AsTheyCome => Vec::new(),
            Numbering::Chain(count) => (1..=u64::from(count)).rev().collect(),
        };
        ValueTable(RefCell::new(Contents {
            header: None,
            nodes: BTreeMap::new(),
            free,
            numbering,
            last_fresh: 0,
        }))
    }

    pub fn header(&self) -> Option<Vec<u8>> {
        self.0.borrow().header.clone()
    }

    pub fn set_header(&self, bytes: &[u8]) {
        self.0.borrow_mut().header = Some(bytes.to_vec());
    }

    pub fn node(&self, number: u64) -> Option<Vec<u8>> {
        self.0.borrow().nodes.get(&number).cloned()
    }

    pub fn set_node(&self, number: u64, bytes: &[u8]) {
        self.0.borrow_mut().nodes.insert(number, bytes.to_vec());
    }

    pub fn add_node(&self, bytes: &[u8]) -> Result<u64> {
        let mut contents = self.0.borrow_mut();
        let number = contents.take_number()?;
        contents.nodes.insert(number, bytes.to_vec());
        Ok(number)
    }

    pub fn free_node(&self, number: u64) {
        let mut contents = self.0.borrow_mut();
        contents.nodes.remove(&number);
        contents.free.push(number);
    }

    /// How many nodes there are, reached or not.
    pub fn node_count(&self) -> usize {
        self.0.borrow().nodes.len()
    }

    /// The free numbers, in the order in which they would be taken.
    pub fn free_chain(&self) -> Vec<u64> {
        self.0.borrow().free.iter().rev().copied().collect()
    }

    pub fn is_init(&self) -> bool {
        self.0.borrow().header.is_some()
    }

    pub fn init_with_entry(&self, header: &[u8]) -> Result<()> {
        self.set_header(header);
        Ok(())
    }
}

/// Files and log: left behind.
impl ValueTable {
    pub fn flush(&self) -> Result<()> {
        Ok(())
    }

    pub fn refresh_metadata(&self) -> Result<()> {
        Ok(())
    }

    pub fn complete_plan(&self, _log: &mut LogWriter) -> Result<()> {
        Ok(())
    }

    pub fn enact_plan(&self, _index: u64, log: &mut LogReader) -> Result<()> {
        match *log {}
    }

    pub fn validate_plan(&self, _index: u64, log: &mut LogReader) -> Result<()> {
        match *log {}
    }
}
