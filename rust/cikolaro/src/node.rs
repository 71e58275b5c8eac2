//! Node bytes, taken apart and put together by the proved functions: for who looks into a slot, or gets nodes from elsewhere.
//!
//! There are two readings. The lenient one is the original's: it takes 0xFF before a length below 255, a separator with value 0 ends the
//! node, and bytes behind the end are ignored. The strict one takes exactly what [`write`] makes, so two byte strings that it reads as the
//! same node are the same. A store's nodes are read strictly by every call.

use std::fmt;

use crate::error::done;
use crate::raw::{self, LentNode};
use crate::{Refusal, LONGEST_NODE};

/// What node bytes say.
#[derive(Clone, Debug, PartialEq, Eq)]
pub struct Node<'a> {
    /// One more than separators. 0 is no child.
    pub children: Vec<u64>,
    /// Keys, which are parts of the bytes, and values.
    pub separators: Vec<(&'a [u8], u64)>,
}

/// A refusal of the strict reading, and where it was given.
#[derive(Clone, Copy, Debug, PartialEq, Eq)]
pub struct Refused {
    pub refusal: Refusal,
    /// Where the refused child or separator begins; with [`Refusal::BytesBehind`] the first byte behind the ninth child. A separator begins
    /// with its value.
    pub place: usize,
}

impl fmt::Display for Refused {
    fn fmt(&self, f: &mut fmt::Formatter<'_>) -> fmt::Result {
        let what = match self.refusal {
            Refusal::ShortChild => "the child begins",
            Refusal::BytesBehind => "they begin",
            _ => "the separator begins",
        };
        write!(f, "{}; {what} at byte {}", self.refusal, self.place)
    }
}

impl std::error::Error for Refused {}

/// The lenient reading: refused with 11 to 14, or 4.
///
/// ```
/// use cikolaro::{node, Refusal};
///
/// // Child 7, value 5, a key of two bytes, child 9; then a separator with value 0, which ends the node, and bytes behind it.
/// let number = u64::to_le_bytes;
/// let bytes = [&number(7)[..], &number(5), &[2, b'a', b'b'], &number(9), &number(0), &[0], &[1, 2, 3]].concat();
/// let node = node::read(&bytes)?;
/// assert_eq!(node.children, [7, 9]);
/// assert_eq!(node.separators, [(&b"ab"[..], 5)]);
///
/// assert_eq!(node::read(&bytes[..20]), Err(Refusal::ShortChild));
/// assert_eq!(node::read(&bytes[..30]), Err(Refusal::ShortHead));
/// # Ok::<(), Refusal>(())
/// ```
pub fn read(bytes: &[u8]) -> Result<Node<'_>, Refusal> {
    let (number, count) = raw::node_read(bytes);
    done(number)?;
    Ok(node(bytes, count))
}

/// The strict reading, from the front: refused with 11 for a child; with 12, 13, 14, 18, 19 or 4, in this order, for a separator; with 20
/// for bytes behind the ninth child. Where it accepts, [`read`] gives the same node.
///
/// An exporter that writes 0xFF before short keys makes files that say the same and aren't the same. They are found, and put right:
///
/// ```
/// use cikolaro::{node, Refusal};
///
/// let ours = node::write(&[], &[(b"ab", 5)])?;
/// let theirs = [&ours[..16], &[0xFF, 2, 0, 0, 0], &ours[17..]].concat();
/// assert_eq!(node::read(&theirs)?, node::read(&ours)?);
///
/// let refused = node::read_strict(&theirs).unwrap_err();
/// assert_eq!((refused.refusal, refused.place), (Refusal::LowSize, 8));
/// assert_eq!(refused.to_string(), "refused 18: 0xFF stands before a length below 255; the separator begins at byte 8");
///
/// let node = node::read(&theirs)?;
/// assert_eq!(node::write(&node.children, &node.separators)?, ours);
/// assert_eq!(node::read_strict(&ours), Ok(node));
/// # Ok::<(), Refusal>(())
/// ```
///
/// The place is told for the other refusals too:
///
/// ```
/// use cikolaro::{node, Refusal};
///
/// let refused = |bytes: &[u8]| node::read_strict(bytes).map_err(|r| (r.refusal, r.place)).unwrap_err();
/// let one = node::write(&[], &[(b"ab", 5)])?;
/// assert_eq!(refused(&one[..20]), (Refusal::ShortChild, 19));
/// assert_eq!(refused(&[&one[..], &[0; 9]].concat()), (Refusal::ZeroValue, 27));
///
/// let full = node::write(&[], &[(b"ab", 5); 8])?;
/// assert_eq!(refused(&[&full[..], &[0]].concat()), (Refusal::BytesBehind, 160));
/// # Ok::<(), Refusal>(())
/// ```
pub fn read_strict(bytes: &[u8]) -> Result<Node<'_>, Refused> {
    let (number, count, place) = raw::node_read_strict(bytes);
    done(number).map_err(|refusal| Refused { refusal, place })?;
    Ok(node(bytes, count))
}

/// The parts of bytes that a reading takes. It is proved that both readings have the same ones where the strict one accepts.
fn node(bytes: &[u8], count: usize) -> Node<'_> {
    Node {
        children: (0..=count).map(|at| raw::node_child(bytes, at)).collect(),
        separators: (0..count).map(|at| raw::node_separator(bytes, at)).collect(),
    }
}

/// A node's bytes in standard form: refused with 16, 4 or 5. Children that are not given are 0; those past the separators plus one are
/// dropped.
///
/// ```
/// use cikolaro::{node, Refusal};
///
/// let bytes = node::write(&[7, 9], &[(b"ab", 5)])?;
/// assert_eq!(bytes.len(), 27);
/// assert_eq!(node::read_strict(&bytes).unwrap().children, [7, 9]);
/// assert_eq!(node::write(&[], &[(b"ab", 0)]), Err(Refusal::BadValue));
/// # Ok::<(), Refusal>(())
/// ```
pub fn write<K: AsRef<[u8]>>(children: &[u64], separators: &[(K, u64)]) -> Result<Vec<u8>, Refusal> {
    let mut bytes = vec![0; LONGEST_NODE];
    let (number, length) = raw::node_write(&LentNode::of(children, separators), &mut bytes);
    done(number)?;
    bytes.truncate(length);
    Ok(bytes)
}
