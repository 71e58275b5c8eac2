//! The exported functions as they are, with their numbers: for callers that lend marks and cursors themselves. include/cikolaro.h says
//! what each answers and leaves. They ask nothing of a caller but what Rust's references say, so no test stands before a call.

use crate::{LONGEST_KEY, MOST_SEPARATORS};

extern "C" {
    fn cikolaro_format(store: *mut u8, store_len: usize, count: u32) -> u32;
    fn cikolaro_audit(
        store: *const u8,
        store_len: usize,
        marks: *mut u64,
        marks_len: usize,
        reached: *mut usize,
    ) -> u32;
    fn cikolaro_batch(
        store: *mut u8,
        store_len: usize,
        marks: *mut u64,
        marks_len: usize,
        records: *const u8,
        records_len: usize,
        applied: *mut usize,
    ) -> u32;
    fn cikolaro_lookup(
        store: *const u8,
        store_len: usize,
        key: *const u8,
        key_len: usize,
        present: *mut u32,
        value: *mut u64,
    ) -> u32;
    fn cikolaro_seek(key: *const u8, key_len: usize, kind: *mut u32, length: *mut usize, held: *mut u8) -> u32;
    fn cikolaro_forward(
        store: *const u8,
        store_len: usize,
        kind: *mut u32,
        length: *mut usize,
        held: *mut u8,
        present: *mut u32,
        value: *mut u64,
    ) -> u32;
    fn cikolaro_backward(
        store: *const u8,
        store_len: usize,
        kind: *mut u32,
        length: *mut usize,
        held: *mut u8,
        present: *mut u32,
        value: *mut u64,
    ) -> u32;
    fn cikolaro_parse(
        text: *const u8,
        text_len: usize,
        records: *mut u8,
        records_len: usize,
        length: *mut usize,
    ) -> u32;
    fn cikolaro_run_lines(
        store: *mut u8,
        store_len: usize,
        marks: *mut u64,
        marks_len: usize,
        records: *mut u8,
        records_len: usize,
        text: *const u8,
        text_len: usize,
        applied: *mut usize,
    ) -> u32;
    fn cikolaro_node_read(bytes: *const u8, bytes_len: usize, count: *mut usize) -> u32;
    fn cikolaro_node_child(bytes: *const u8, bytes_len: usize, index: usize) -> u64;
    fn cikolaro_node_separator(
        bytes: *const u8,
        bytes_len: usize,
        index: usize,
        start: *mut usize,
        length: *mut usize,
        value: *mut u64,
    ) -> u32;
    fn cikolaro_node_read_strict(bytes: *const u8, bytes_len: usize, count: *mut usize, place: *mut usize) -> u32;
    fn cikolaro_node_separator_strict(
        bytes: *const u8,
        bytes_len: usize,
        index: usize,
        start: *mut usize,
        length: *mut usize,
        value: *mut u64,
    ) -> u32;
    fn cikolaro_node_write(
        count: usize,
        children: *const u64,
        values: *const u64,
        lengths: *const usize,
        keys: *const u8,
        destination: *mut u8,
        destination_len: usize,
        written: *mut usize,
    ) -> u32;
}

/// A cursor as it is lent: kind 0 Start, 1 End, 2 At, 3 Seeked.
#[derive(Clone, Copy, Debug, PartialEq, Eq)]
pub struct Lent {
    pub kind: u32,
    pub length: usize,
    pub key: [u8; LONGEST_KEY],
}

/// A node as it is lent: the key of separator i is the first `lengths[i]` bytes from 288 * i on. What no separator uses is dropped.
#[derive(Clone, Debug, PartialEq, Eq)]
pub struct LentNode {
    pub count: usize,
    pub children: [u64; MOST_SEPARATORS + 1],
    pub values: [u64; MOST_SEPARATORS],
    pub lengths: [usize; MOST_SEPARATORS],
    pub keys: [u8; LONGEST_KEY * MOST_SEPARATORS],
}

impl LentNode {
    /// The node of these children and separators, as far as it can be lent: what is too much the writer refuses by its count or length.
    pub fn of<K: AsRef<[u8]>>(children: &[u64], separators: &[(K, u64)]) -> LentNode {
        let mut node = LentNode {
            count: separators.len(),
            children: [0; MOST_SEPARATORS + 1],
            values: [0; MOST_SEPARATORS],
            lengths: [0; MOST_SEPARATORS],
            keys: [0; LONGEST_KEY * MOST_SEPARATORS],
        };
        node.children.iter_mut().zip(children).for_each(|(to, child)| *to = *child);
        for (at, (key, value)) in separators.iter().take(MOST_SEPARATORS).enumerate() {
            let key = key.as_ref();
            node.values[at] = *value;
            node.lengths[at] = key.len();
            node.keys[LONGEST_KEY * at..][..LONGEST_KEY].iter_mut().zip(key).for_each(|(to, byte)| *to = *byte);
        }
        node
    }
}

/// A number, and the value where there is one.
#[derive(Clone, Copy, Debug, PartialEq, Eq)]
pub struct Answer {
    pub number: u32,
    pub value: Option<u64>,
}

fn answer(number: u32, present: u32, value: u64) -> Answer {
    Answer { number, value: (present == 1).then_some(value) }
}

pub fn format(store: &mut [u8], count: u32) -> u32 {
    // SAFETY: the slice is borrowed for writing for the call.
    unsafe { cikolaro_format(store.as_mut_ptr(), store.len(), count) }
}

/// The number, and how many slots are reached.
pub fn audit(store: &[u8], marks: &mut [u64]) -> (u32, usize) {
    let mut reached = 0;
    // SAFETY: the store is borrowed for reading, the marks and the count for writing, for the call.
    let number = unsafe { cikolaro_audit(store.as_ptr(), store.len(), marks.as_mut_ptr(), marks.len(), &mut reached) };
    (number, reached)
}

/// The number, and how many records are applied.
pub fn batch(store: &mut [u8], marks: &mut [u64], records: &[u8]) -> (u32, usize) {
    let mut applied = 0;
    // SAFETY: store, marks and count are borrowed for writing, the records for reading, for the call.
    let number = unsafe {
        cikolaro_batch(
            store.as_mut_ptr(),
            store.len(),
            marks.as_mut_ptr(),
            marks.len(),
            records.as_ptr(),
            records.len(),
            &mut applied,
        )
    };
    (number, applied)
}

/// The number, and how many bytes at the front of `records` are the records that the house lines say.
///
/// ```
/// let mut records = [7; 20];
/// assert_eq!(cikolaro::raw::parse(b"set\t61\t5\n", &mut records), (0, 12));
/// assert_eq!(records[..12], [1, 1, 0, 5, 0, 0, 0, 0, 0, 0, 0, 0x61]);
/// assert_eq!(records[12..], [0; 8]);
/// ```
pub fn parse(text: &[u8], records: &mut [u8]) -> (u32, usize) {
    let mut length = 0;
    // SAFETY: the text is borrowed for reading, the records and the length for writing, for the call.
    let number = unsafe { cikolaro_parse(text.as_ptr(), text.len(), records.as_mut_ptr(), records.len(), &mut length) };
    (number, length)
}

/// The number, and how many records are applied.
pub fn run_lines(store: &mut [u8], marks: &mut [u64], records: &mut [u8], text: &[u8]) -> (u32, usize) {
    let mut applied = 0;
    // SAFETY: store, marks, records and count are borrowed for writing, the text for reading, for the call.
    let number = unsafe {
        cikolaro_run_lines(
            store.as_mut_ptr(),
            store.len(),
            marks.as_mut_ptr(),
            marks.len(),
            records.as_mut_ptr(),
            records.len(),
            text.as_ptr(),
            text.len(),
            &mut applied,
        )
    };
    (number, applied)
}

pub fn lookup(store: &[u8], key: &[u8]) -> Answer {
    let (mut present, mut value) = (0, 0);
    // SAFETY: both slices are borrowed for reading, the two numbers for writing, for the call.
    let number =
        unsafe { cikolaro_lookup(store.as_ptr(), store.len(), key.as_ptr(), key.len(), &mut present, &mut value) };
    answer(number, present, value)
}

pub fn seek(key: &[u8], cursor: &mut Lent) -> u32 {
    // SAFETY: the key is borrowed for reading, the cursor's three fields for writing, for the call; the array has 288 bytes.
    unsafe { cikolaro_seek(key.as_ptr(), key.len(), &mut cursor.kind, &mut cursor.length, cursor.key.as_mut_ptr()) }
}

/// What `cikolaro_forward` and `cikolaro_backward` are called with.
type StepBy = unsafe extern "C" fn(*const u8, usize, *mut u32, *mut usize, *mut u8, *mut u32, *mut u64) -> u32;

fn step(by: StepBy, store: &[u8], cursor: &mut Lent) -> Answer {
    let (mut present, mut value) = (0, 0);
    // SAFETY: the store is borrowed for reading, the cursor's three fields and the two numbers for writing, for the call; the
    // array has 288 bytes.
    let number = unsafe {
        by(
            store.as_ptr(),
            store.len(),
            &mut cursor.kind,
            &mut cursor.length,
            cursor.key.as_mut_ptr(),
            &mut present,
            &mut value,
        )
    };
    answer(number, present, value)
}

pub fn forward(store: &[u8], cursor: &mut Lent) -> Answer {
    step(cikolaro_forward, store, cursor)
}

pub fn backward(store: &[u8], cursor: &mut Lent) -> Answer {
    step(cikolaro_backward, store, cursor)
}

/// The number of the lenient reading, and how many separators the node has.
pub fn node_read(bytes: &[u8]) -> (u32, usize) {
    let mut count = 0;
    // SAFETY: the bytes are borrowed for reading, the count for writing, for the call.
    let number = unsafe { cikolaro_node_read(bytes.as_ptr(), bytes.len(), &mut count) };
    (number, count)
}

/// The child at an index, 0 where there is none.
pub fn node_child(bytes: &[u8], index: usize) -> u64 {
    // SAFETY: the bytes are borrowed for reading for the call.
    unsafe { cikolaro_node_child(bytes.as_ptr(), bytes.len(), index) }
}

/// The key and the value of the separator at an index; an empty key and 0 where there is none. The key is a part of the bytes.
///
/// ```
/// use cikolaro::raw;
///
/// // Child 0, value 5, a key of two bytes, child 0.
/// let node = [&[0; 8][..], &5u64.to_le_bytes(), &[2, 0x61, 0x62], &[0; 8]].concat();
/// assert_eq!(raw::node_read(&node), (0, 1));
/// assert_eq!(raw::node_separator(&node, 0), (&b"ab"[..], 5));
/// assert_eq!(raw::node_read(&[]), (11, 0));
/// ```
pub fn node_separator(bytes: &[u8], index: usize) -> (&[u8], u64) {
    separator(cikolaro_node_separator, bytes, index)
}

/// What `cikolaro_node_separator` and `cikolaro_node_separator_strict` are called with.
type SeparatorBy = unsafe extern "C" fn(*const u8, usize, usize, *mut usize, *mut usize, *mut u64) -> u32;

fn separator(by: SeparatorBy, bytes: &[u8], index: usize) -> (&[u8], u64) {
    let (mut start, mut length, mut value) = (0, 0, 0);
    // SAFETY: the bytes are borrowed for reading, the three numbers for writing, for the call.
    unsafe { by(bytes.as_ptr(), bytes.len(), index, &mut start, &mut length, &mut value) };
    (&bytes[start..start + length], value)
}

/// The number of the strict reading, how many separators the node has, and a place: where the refused child or separator begins, or the
/// first byte behind the ninth child; for accepted bytes how many they are.
///
/// ```
/// use cikolaro::raw;
///
/// // Child 0, value 5, 0xFF before a key of two bytes, child 0.
/// let sloppy = [&[0; 8][..], &5u64.to_le_bytes(), &[0xFF, 2, 0, 0, 0, 0x61, 0x62], &[0; 8]].concat();
/// assert_eq!(raw::node_read(&sloppy), (0, 1));
/// assert_eq!(raw::node_read_strict(&sloppy), (18, 0, 8));
/// let plain = [&sloppy[..16], &[2], &sloppy[21..]].concat();
/// assert_eq!(raw::node_read_strict(&plain), (0, 1, 27));
/// ```
pub fn node_read_strict(bytes: &[u8]) -> (u32, usize, usize) {
    let (mut count, mut place) = (0, 0);
    // SAFETY: the bytes are borrowed for reading, the two numbers for writing, for the call.
    let number = unsafe { cikolaro_node_read_strict(bytes.as_ptr(), bytes.len(), &mut count, &mut place) };
    (number, count, place)
}

/// As [`node_separator`], by the strict reading. Its children are those that [`node_child`] gives.
///
/// ```
/// use cikolaro::raw;
///
/// let plain = [&[0; 8][..], &5u64.to_le_bytes(), &[2, 0x61, 0x62], &[0; 8]].concat();
/// assert_eq!(raw::node_separator_strict(&plain, 0), (&b"ab"[..], 5));
/// assert_eq!(raw::node_separator_strict(&plain, 1), (&b""[..], 0));
/// let cut_short = &plain[..20];
/// assert_eq!(raw::node_separator_strict(cut_short, 0), (&b""[..], 0));
/// ```
pub fn node_separator_strict(bytes: &[u8], index: usize) -> (&[u8], u64) {
    separator(cikolaro_node_separator_strict, bytes, index)
}

/// The number, and how many bytes of the destination the node's standard form takes, 0 if refused.
///
/// ```
/// use cikolaro::raw::{self, LentNode};
///
/// let node = LentNode::of(&[], &[(b"ab".to_vec(), 5)]);
/// let mut bytes = [7; 30];
/// assert_eq!(raw::node_write(&node, &mut bytes), (0, 27));
/// assert_eq!(raw::node_separator(&bytes[..27], 0), (&b"ab"[..], 5));
/// assert_eq!(bytes[27..], [7; 3]);
/// assert_eq!(raw::node_write(&node, &mut bytes[..26]), (10, 0));
/// ```
pub fn node_write(node: &LentNode, destination: &mut [u8]) -> (u32, usize) {
    let mut written = 0;
    // SAFETY: the node's arrays, which have 9, 8, 8 and 2,304 elements, are borrowed for reading, the destination and the length for
    // writing, for the call.
    let number = unsafe {
        cikolaro_node_write(
            node.count,
            node.children.as_ptr(),
            node.values.as_ptr(),
            node.lengths.as_ptr(),
            node.keys.as_ptr(),
            destination.as_mut_ptr(),
            destination.len(),
            &mut written,
        )
    };
    (number, written)
}
