//! No log: nodes are written at once. What is left is the number of the last
//! batch, by which an open iterator sees that the tree has changed.

use crate::{column::ColId, parking_lot::RwLock};

/// Who may read the tables. All of it is in the tables here.
pub trait LogQuery {}

#[derive(Debug)]
pub struct LogOverlays {
    last_record_id: u64,
}

impl LogOverlays {
    pub fn new() -> Self {
        LogOverlays { last_record_id: 0 }
    }

    pub fn last_record_id(&self, _column: ColId) -> u64 {
        self.last_record_id
    }

    pub fn set_last_record_id(&mut self, id: u64) {
        self.last_record_id = id;
    }
}

pub struct LogWriter {
    record_id: u64,
}

impl LogWriter {
    pub fn new(record_id: u64) -> Self {
        LogWriter { record_id }
    }

    pub fn record_id(&self) -> u64 {
        self.record_id
    }
}

impl LogQuery for LogOverlays {}
impl LogQuery for RwLock<LogOverlays> {}
impl LogQuery for LogWriter {}

/// Replaying a log: left behind, so there is none of it.
pub enum LogReader {}

#[allow(dead_code)]
pub enum LogAction {
    InsertValue(InsertValueAction),
    Other,
}

pub struct InsertValueAction {
    pub table: ValueTableId,
    pub index: u64,
}

pub struct ValueTableId;

impl ValueTableId {
    pub fn size_tier(&self) -> u8 {
        0
    }
}
