//! Two archives in one program: the library before a change and after it. build/archives.rs gives their functions these names. Both are
//! called in the same way, and as rust/cikolaro's `raw` calls them.

use super::proved::Exported;
use cikolaro::raw::{Answer, Lent, LentNode};

pub const BEFORE: &str = "before";
pub const AFTER: &str = "after";

pub struct Before;

pub struct After;

macro_rules! exported_by {
    ($archive:ident, $side:expr, $begin:literal) => {
        impl Exported for $archive {
            const SIDE: &'static str = $side;

            fn format(store: &mut [u8], count: u32) -> u32 {
                extern "C" {
                    #[link_name = concat!($begin, "format")]
                    fn format(store: *mut u8, store_len: usize, count: u32) -> u32;
                }
                // SAFETY: the slice is borrowed for writing for the call.
                unsafe { format(store.as_mut_ptr(), store.len(), count) }
            }

            fn audit(store: &[u8], marks: &mut [u64]) -> (u32, usize) {
                extern "C" {
                    #[link_name = concat!($begin, "audit")]
                    fn audit(
                        store: *const u8,
                        store_len: usize,
                        marks: *mut u64,
                        marks_len: usize,
                        reached: *mut usize,
                    ) -> u32;
                }
                let mut reached = 0;
                // SAFETY: the store is borrowed for reading, the marks and the count for writing, for the call.
                let number =
                    unsafe { audit(store.as_ptr(), store.len(), marks.as_mut_ptr(), marks.len(), &mut reached) };
                (number, reached)
            }

            fn batch(store: &mut [u8], marks: &mut [u64], records: &[u8]) -> (u32, usize) {
                extern "C" {
                    #[link_name = concat!($begin, "batch")]
                    fn batch(
                        store: *mut u8,
                        store_len: usize,
                        marks: *mut u64,
                        marks_len: usize,
                        records: *const u8,
                        records_len: usize,
                        applied: *mut usize,
                    ) -> u32;
                }
                let mut applied = 0;
                // SAFETY: store, marks and count are borrowed for writing, the records for reading, for the call.
                let number = unsafe {
                    batch(
                        store.as_mut_ptr(),
                        store.len(),
                        marks.as_mut_ptr(),
                        marks.len(),
                        records.as_ptr(),
                        records.len(),
                        &mut applied,
                    )
                };
                (number, applied)
            }

            fn lookup(store: &[u8], key: &[u8]) -> Answer {
                extern "C" {
                    #[link_name = concat!($begin, "lookup")]
                    fn lookup(
                        store: *const u8,
                        store_len: usize,
                        key: *const u8,
                        key_len: usize,
                        present: *mut u32,
                        value: *mut u64,
                    ) -> u32;
                }
                let (mut present, mut value) = (0, 0);
                // SAFETY: both slices are borrowed for reading, the two numbers for writing, for the call.
                let number =
                    unsafe { lookup(store.as_ptr(), store.len(), key.as_ptr(), key.len(), &mut present, &mut value) };
                answer(number, present, value)
            }

            fn forward(store: &[u8], cursor: &mut Lent) -> Answer {
                extern "C" {
                    #[link_name = concat!($begin, "forward")]
                    fn forward(
                        store: *const u8,
                        store_len: usize,
                        kind: *mut u32,
                        length: *mut usize,
                        held: *mut u8,
                        present: *mut u32,
                        value: *mut u64,
                    ) -> u32;
                }
                let (mut present, mut value) = (0, 0);
                // SAFETY: the store is borrowed for reading, the cursor's three fields and the two numbers for writing, for the
                // call; the array has 288 bytes.
                let number = unsafe {
                    forward(
                        store.as_ptr(),
                        store.len(),
                        &mut cursor.kind,
                        &mut cursor.length,
                        cursor.key.as_mut_ptr(),
                        &mut present,
                        &mut value,
                    )
                };
                answer(number, present, value)
            }

            fn node_read(bytes: &[u8]) -> (u32, usize) {
                extern "C" {
                    #[link_name = concat!($begin, "node_read")]
                    fn node_read(bytes: *const u8, bytes_len: usize, count: *mut usize) -> u32;
                }
                let mut count = 0;
                // SAFETY: the bytes are borrowed for reading, the count for writing, for the call.
                let number = unsafe { node_read(bytes.as_ptr(), bytes.len(), &mut count) };
                (number, count)
            }

            fn node_write(node: &LentNode, destination: &mut [u8]) -> (u32, usize) {
                extern "C" {
                    #[link_name = concat!($begin, "node_write")]
                    fn node_write(
                        count: usize,
                        children: *const u64,
                        values: *const u64,
                        lengths: *const usize,
                        keys: *const u8,
                        destination: *mut u8,
                        destination_len: usize,
                        written: *mut usize,
                    ) -> u32;
                }
                let mut written = 0;
                // SAFETY: the node's arrays, which have 9, 8, 8 and 2,304 elements, are borrowed for reading, the destination and
                // the length for writing, for the call.
                let number = unsafe {
                    node_write(
                        node.count,
                        node.children.as_ptr(),
                        node.values.as_ptr(),
                        node.lengths.as_ptr(),
                        node.keys.as_ptr(),
                        destination.as_mut_ptr(),
                        destination.len(),
                        &mut written,
                    )
                };
                (number, written)
            }
        }
    };
}

exported_by!(Before, BEFORE, "before_cikolaro_");
exported_by!(After, AFTER, "after_cikolaro_");

fn answer(number: u32, present: u32, value: u64) -> Answer {
    Answer { number, value: (present == 1).then_some(value) }
}
