//! Feeding the original so that it numbers its nodes as 01 does.

use original::btree::glue::{Change, Original, Result};

/// The batch, cut into its runs of equal keys.
pub fn runs(batch: &[Change]) -> impl Iterator<Item = &[Change]> {
    batch.chunk_by(|left, right| left.key() == right.key())
}

/// Runs a batch as 01 tells it: an empty root first where there is none, then
/// one run of equal keys at a time, each from the root.
pub fn feed(tree: &Original, batch: &[Change]) -> Result<()> {
    if tree.header()?.0 == 0 {
        tree.batch(&[])?;
    }
    runs(batch).try_for_each(|run| tree.batch(run))
}
