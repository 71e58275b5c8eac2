//! A batch: refusals in 01's order, the audit, the first root, all runs.

use super::audit::audit;
use super::edit::{node_start, Tree};
use super::layout::{mark_words, put_u32, put_u64, Header, NODE};
use super::records::{check, Record, SET};
use super::{number, Answer};

/// 01's number, and how many records are applied. `resumes`: a key is searched from where the last one was found.
pub fn batch(store: &mut [u8], marks: &mut [u64], records: &[u8], resumes: bool) -> (u32, usize) {
    let mut applied = 0;
    let number = accepted(store, marks, records, resumes, &mut applied).err().unwrap_or(0);
    (number, applied)
}

fn accepted(store: &mut [u8], marks: &mut [u64], records: &[u8], resumes: bool, applied: &mut usize) -> Answer<()> {
    let header = Header::of(store)?;
    if marks.len() < mark_words(header.count) {
        return Err(number::FEW_MARKS);
    }
    check(records)?;
    let reached = audit(store, marks)?;
    marks.fill(0);
    let mut tree = Tree::new(store, header, reached, resumes);
    let answer = tree.runs(records, applied);
    tree.close();
    answer
}

impl Tree<'_> {
    fn runs(&mut self, records: &[u8], applied: &mut usize) -> Answer<()> {
        if self.root == 0 {
            self.plant();
        }
        let mut next = Record::first(records);
        while let Some((mut record, mut behind)) = next {
            let mut size = 1;
            next = Record::first(behind);
            while let Some((other, after)) = next.filter(|(other, _)| other.key == record.key) {
                (record, behind, size) = (other, after, size + 1);
                next = Record::first(behind);
            }
            if record.kind == SET {
                self.set(record.key, record.value)?;
            } else {
                self.dereference(record.key);
            }
            *applied += size;
        }
        Ok(())
    }

    /// An empty root.
    fn plant(&mut self) {
        let slot = self.take();
        let start = node_start(slot);
        put_u32(self.bytes, start - NODE, 8);
        put_u64(self.bytes, start, 0);
        self.root = slot;
    }
}
