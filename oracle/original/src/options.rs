//! Options of a column, as far as `BTreeTable::open` asks.

use crate::column::ColId;
use std::collections::HashMap;

pub const DEFAULT_COMPRESSION_THRESHOLD: u32 = 0;

#[derive(Default)]
pub struct ColumnOptions {
    pub ref_counted: bool,
    pub compression: (),
}

#[derive(Default)]
pub struct Options {
    pub columns: Vec<ColumnOptions>,
    pub compression_threshold: HashMap<ColId, u32>,
}

#[derive(Default)]
pub struct Metadata {
    pub columns: Vec<ColumnOptions>,
}
