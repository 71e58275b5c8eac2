//! Where the original's reads and writes of header, nodes and values arrive.

use crate::{
    compress::Compress,
    db::{Operation, RcKey},
    error::{Error, Result},
    index::{Address, PlanOutcome},
    log::{LogQuery, LogWriter},
    table::{
        key::{TableKey, TableKeyQuery},
        Value, ValueTable,
    },
};

pub type ColId = u8;

#[derive(Clone, Copy)]
pub struct TablesRef<'a> {
    pub tables: &'a [ValueTable],
    pub compression: &'a Compress,
    #[allow(dead_code)]
    pub col: ColId,
    #[allow(dead_code)]
    pub preimage: bool,
    pub ref_counted: bool,
}

impl TablesRef<'_> {
    /// There is one table.
    fn table(&self) -> &ValueTable {
        &self.tables[0]
    }
}

/// A change's key tells a record of the batch from the original's own writes.
pub trait ChangeKey {
    const IS_RECORD: bool;
}

impl ChangeKey for RcKey {
    const IS_RECORD: bool = true;
}

impl ChangeKey for () {
    const IS_RECORD: bool = false;
}

/// Counting of operations: none.
pub enum ColumnStats {}

type Written = (Option<PlanOutcome>, Option<Address>);

pub enum Column {}

impl Column {
    /// The original asks for nodes with `Check`, for the header and for values
    /// with `Fetch`. A value's content is its address.
    pub fn get_value(
        query: TableKeyQuery,
        address: Address,
        tables: TablesRef,
        _log: &impl LogQuery,
    ) -> Result<Option<(u8, u32, Value)>> {
        let content = match (query, address) {
            (TableKeyQuery::Check(_), at) => tables.table().node(at.as_u64()),
            (TableKeyQuery::Fetch(_), Address::Header) => tables.table().header(),
            (TableKeyQuery::Fetch(_), Address::Number(value)) => Some(value.to_le_bytes().to_vec()),
        };
        Ok(content.map(|bytes| (0, 1, bytes)))
    }

    pub fn write_existing_value_plan<K: ChangeKey, V: AsRef<[u8]>>(
        _key: &TableKey,
        tables: TablesRef,
        address: Address,
        change: &Operation<K, V>,
        _log: &mut LogWriter,
        _stats: Option<&ColumnStats>,
        _ref_counted: bool,
    ) -> Result<Written> {
        match change {
            Operation::Set(_, content) => Self::overwrite(tables, address, content.as_ref()),
            Operation::Dereference(_) => {
                if !K::IS_RECORD {
                    tables.table().free_node(address.as_u64());
                }
                Ok((None, None))
            }
            _ => unreachable!("only sets and dereferences are fed"),
        }
    }

    fn overwrite(tables: TablesRef, address: Address, content: &[u8]) -> Result<Written> {
        let new_address = match address {
            Address::Header => {
                tables.table().set_header(content);
                None
            }
            Address::Number(node) if tables.compression.is_for_nodes() => {
                tables.table().set_node(node, content);
                None
            }
            Address::Number(_) => Some(value_address(content)?),
        };
        Ok((Some(PlanOutcome::Written), new_address))
    }

    pub fn write_new_value_plan(
        _key: &TableKey,
        tables: TablesRef,
        content: &[u8],
        _log: &mut LogWriter,
        _stats: Option<&ColumnStats>,
    ) -> Result<Address> {
        if tables.compression.is_for_nodes() {
            tables.table().add_node(content).map(Address::from_u64)
        } else {
            value_address(content)
        }
    }
}

/// The address that the caller supplies as a value.
fn value_address(content: &[u8]) -> Result<Address> {
    let bytes = content
        .try_into()
        .map_err(|_| Error::InvalidInput("a value is an address of 8 bytes".into()))?;
    Ok(Address::from_u64(u64::from_le_bytes(bytes)))
}
