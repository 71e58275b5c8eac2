//! Operations, and the commit overlay that is left behind.

use crate::btree::LastKey;
use std::cmp::Ordering;
use std::collections::BTreeMap;

/// A key of a batch.
#[derive(Clone, Debug, PartialEq, Eq, PartialOrd, Ord)]
pub struct RcKey(Vec<u8>);

/// A value of a batch: the caller's address, 8 bytes.
#[derive(Clone, Debug, PartialEq, Eq)]
pub struct RcValue(Vec<u8>);

impl From<Vec<u8>> for RcKey {
    fn from(bytes: Vec<u8>) -> Self {
        RcKey(bytes)
    }
}

impl From<Vec<u8>> for RcValue {
    fn from(bytes: Vec<u8>) -> Self {
        RcValue(bytes)
    }
}

impl AsRef<[u8]> for RcKey {
    fn as_ref(&self) -> &[u8] {
        &self.0
    }
}

impl AsRef<[u8]> for RcValue {
    fn as_ref(&self) -> &[u8] {
        &self.0
    }
}

/// A change. Only the first two kinds are fed to the original.
#[derive(Clone, Debug)]
pub enum Operation<K, V> {
    Set(K, V),
    Dereference(K),
    Reference(K),
    InsertTree(K),
    ReferenceTree(K),
    DereferenceTree(K),
}

impl<K, V> Operation<K, V> {
    pub fn key(&self) -> &K {
        match self {
            Operation::Set(key, _)
            | Operation::Dereference(key)
            | Operation::Reference(key)
            | Operation::InsertTree(key)
            | Operation::ReferenceTree(key)
            | Operation::DereferenceTree(key) => key,
        }
    }

    pub fn into_key(self) -> K {
        match self {
            Operation::Set(key, _)
            | Operation::Dereference(key)
            | Operation::Reference(key)
            | Operation::InsertTree(key)
            | Operation::ReferenceTree(key)
            | Operation::DereferenceTree(key) => key,
        }
    }
}

// The given text doesn't show this order. By key only, its (stable) sort
// leaves a batch whose keys never fall as it is.
impl<K: Ord, V> Ord for Operation<K, V> {
    fn cmp(&self, other: &Self) -> Ordering {
        self.key().cmp(other.key())
    }
}

impl<K: Ord, V> PartialOrd for Operation<K, V> {
    fn partial_cmp(&self, other: &Self) -> Option<Ordering> {
        Some(self.cmp(other))
    }
}

impl<K: Ord, V> PartialEq for Operation<K, V> {
    fn eq(&self, other: &Self) -> bool {
        self.cmp(other) == Ordering::Equal
    }
}

impl<K: Ord, V> Eq for Operation<K, V> {}

pub type BTreeCommitOverlay = BTreeMap<RcKey, (u64, Option<RcValue>)>;

/// Uncommitted changes over a column: left behind, so there is none.
#[derive(Debug)]
pub enum CommitOverlay {}

type OverlayEntry = (RcKey, Option<RcValue>);

impl CommitOverlay {
    pub fn btree_next(&self, _last: &LastKey) -> Option<OverlayEntry> {
        match *self {}
    }

    pub fn btree_prev(&self, _last: &LastKey) -> Option<OverlayEntry> {
        match *self {}
    }
}
