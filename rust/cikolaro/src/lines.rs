//! 01's house lines: `set` TAB key in lowercase hex TAB decimal, or `del` TAB key; each ends in LF. The proved parser reads them.

use crate::error::done;
use crate::{raw, Batch, Refusal};

/// The most text that is one batch.
pub const MOST_TEXT: usize = 16_384;

/// How many bytes the records of so much text have at most. The shortest line, `del` TAB LF, is a record of 11 bytes; two more bytes
/// of text are at most one more byte of key. More text than one batch takes is refused, whatever the room.
pub(crate) const fn most_record_bytes(text: usize) -> usize {
    let text = if text < MOST_TEXT { text } else { MOST_TEXT };
    11 * (text / 5) + text % 5 / 2
}

/// The records that a text says, in its order, as 01 has them; 15 for a bad line or too much text.
///
/// ```
/// use cikolaro::{lines, Refusal};
///
/// assert_eq!(lines::records(b"del\t62\n").unwrap(), [2, 1, 0, 0, 0, 0, 0, 0, 0, 0, 0, 0x62]);
/// assert_eq!(lines::records(b"del\t62").unwrap_err(), Refusal::BadText);
/// ```
pub fn records(text: &[u8]) -> Result<Vec<u8>, Refusal> {
    let mut records = vec![0; most_record_bytes(text.len())];
    let (number, length) = raw::parse(text, &mut records);
    done(number)?;
    records.truncate(length);
    Ok(records)
}

/// The changes of a text, in its order; 15 for a bad line or too much text.
///
/// ```
/// use cikolaro::{lines, Refusal};
///
/// assert_eq!(lines::parse(b"set\t61\t5\ndel\t62\n").unwrap().len(), 2);
/// assert_eq!(lines::parse(b"set\t61\t05\n").unwrap_err(), Refusal::BadText);
/// ```
pub fn parse(text: &[u8]) -> Result<Batch, Refusal> {
    Ok(Batch::of_records(&records(text)?))
}

/// A key in lowercase hex; the empty text is the empty key.
///
/// ```
/// use cikolaro::{lines, Refusal};
///
/// assert_eq!(lines::parse_key(b"6162").unwrap(), b"ab");
/// assert_eq!(lines::parse_key(b"61\n").unwrap_err(), Refusal::BadText);
/// ```
pub fn parse_key(hex: &[u8]) -> Result<Vec<u8>, Refusal> {
    let line = [b"del\t", hex, b"\n"].concat();
    // A text that has an LF of its own is more than one line.
    parse(&line)?.only_key().ok_or(Refusal::BadText)
}

/// A key in lowercase hex.
pub fn hex(key: &[u8]) -> String {
    key.iter().map(|b| format!("{b:02x}")).collect()
}

#[cfg(test)]
mod tests {
    use super::*;

    fn refused(text: &[u8]) -> bool {
        parse(text).is_err_and(|r| r == Refusal::BadText)
    }

    #[test]
    fn house_lines_are_read_as_told() {
        assert_eq!(parse(b"").unwrap().len(), 0);
        assert_eq!(parse(b"set\t\t5\ndel\t\n").unwrap().len(), 2);
        assert_eq!(parse(b"set\t61\t18446744073709551615\n").unwrap().len(), 1);
        assert_eq!(parse(b"set\t61\t0\n").unwrap().len(), 1);
        let bad: [&[u8]; 14] = [
            b"\n",
            b"set",
            b"set\t61\t5",
            b"set\t6\t5\n",
            b"set\t6A\t5\n",
            b"set\t61\t+5\n",
            b"set\t61\t00\n",
            b"set\t61\t\n",
            b"set\t61\t18446744073709551616\n",
            b"set\t61\n",
            b"del\t61\t5\n",
            b"Set\t61\t5\n",
            b"set 61 5\n",
            b"del\t61\r\n",
        ];
        for text in bad {
            assert!(refused(text), "{text:?}");
        }
    }

    #[test]
    fn a_batch_has_what_the_lines_say() {
        let text = b"set\t62\t18446744073709551615\ndel\t61ff\nset\t\t0\n";
        let mut batch = Batch::new();
        batch.set(b"b", u64::MAX).remove([0x61, 0xFF]).set(b"", 0);
        assert_eq!(parse(text).unwrap(), batch);
        assert_eq!(records(text).unwrap(), batch.encode_as_given());
    }

    #[test]
    fn the_most_text_fits() {
        let mut text = b"del\t\n".repeat(MOST_TEXT / 5 - 1);
        text.extend(b"del\t6161\n");
        assert_eq!(text.len(), MOST_TEXT);
        assert_eq!(records(&text).unwrap().len(), most_record_bytes(MOST_TEXT));
        text.extend(b"del\t\n");
        assert!(refused(&text));
    }

    #[test]
    fn a_key_is_one_field() {
        assert_eq!(parse_key(b""), Ok(Vec::new()));
        for hex in [&b"6"[..], b"6A", b"61\t5", b"\n", b"61\ndel\t62", b"61\nset\t62\t1234567890123456"] {
            assert_eq!(parse_key(hex), Err(Refusal::BadText), "{hex:?}");
        }
    }
}
