//! Writing: of one part, of a whole message, and a record put into a table.
use crate::words::*;
use crate::*;

/// Writes a varint to the buffer's front: its length. Refusal: NoRoom.
///
/// ```
/// # use capgauze::encode_varint;
/// let mut buf = [0xAA; 3];
/// assert_eq!(encode_varint(128, &mut buf), Ok(2));
/// assert_eq!(buf, [0x80, 0x00, 0xAA]);
/// ```
pub fn encode_varint(v: u64, buf: &mut [u8]) -> Result<usize, Refusal> {
    length(unsafe { ffi::capgauze_encode_varint(v, buf.as_mut_ptr(), buf.len()) })
}

/// Writes a varint to the buffer's end: its length. Refusal: NoRoom.
///
/// ```
/// # use capgauze::{prepend_varint, Refusal};
/// let mut buf = [0xAA; 3];
/// assert_eq!(prepend_varint(128, &mut buf), Ok(2));
/// assert_eq!(buf, [0xAA, 0x80, 0x00]);
/// assert_eq!(prepend_varint(u64::MAX, &mut buf), Err(Refusal::NoRoom));
/// ```
pub fn prepend_varint(v: u64, buf: &mut [u8]) -> Result<usize, Refusal> {
    length(unsafe { ffi::capgauze_prepend_varint(v, buf.as_mut_ptr(), buf.len()) })
}

/// Writes the key of a tag, after the tag `last`, to the buffer's front: its length. Refusals: OutOfOrder, NoRoom.
///
/// ```
/// # use capgauze::{encode_key, Refusal, WireType};
/// let mut buf = [0xAA; 2];
/// assert_eq!(encode_key(3, 5, WireType::LengthDelimited, &mut buf), Ok(1));
/// assert_eq!(buf, [0x09, 0xAA]);
/// assert_eq!(encode_key(5, 3, WireType::Varint, &mut buf), Err(Refusal::OutOfOrder));
/// ```
pub fn encode_key(
    last: u32,
    tag: u32,
    wire_type: WireType,
    buf: &mut [u8],
) -> Result<usize, Refusal> {
    let kind = wire_type as u64;
    length(unsafe { ffi::capgauze_encode_key(last, tag, kind, buf.as_mut_ptr(), buf.len()) })
}

/// Writes it to the buffer's end.
///
/// ```
/// # use capgauze::{prepend_key, WireType};
/// let mut buf = [0xAA; 2];
/// assert_eq!(prepend_key(3, 5, WireType::LengthDelimited, &mut buf), Ok(1));
/// assert_eq!(buf, [0xAA, 0x09]);
/// ```
pub fn prepend_key(
    last: u32,
    tag: u32,
    wire_type: WireType,
    buf: &mut [u8],
) -> Result<usize, Refusal> {
    let kind = wire_type as u64;
    length(unsafe { ffi::capgauze_prepend_key(last, tag, kind, buf.as_mut_ptr(), buf.len()) })
}

/// The length of such a key, which is the same for every wire type. Refusal: OutOfOrder.
///
/// ```
/// # use capgauze::key_len;
/// assert_eq!((key_len(0, 31), key_len(0, 32)), (Ok(1), Ok(2)));
/// ```
pub fn key_len(last: u32, tag: u32) -> Result<usize, Refusal> {
    length(unsafe { ffi::capgauze_key_len(last, tag) })
}

/// Writes the table's first `count` records as a message to the buffer's front; payloads are taken from the source.
/// Refusals in order: TooLong for the source; BadRecord for a count above the room; from the first record on BadRecord,
/// then OutOfOrder; TooLong for the output; NoRoom, with the length needed.
///
/// ```
/// # use capgauze::{encode_message, Written, NO_KEY};
/// let table = [1, 0, 7, 0, NO_KEY, 3, 1, 0, 2, NO_KEY];
/// let mut buf = [0xAA; 7];
/// assert_eq!(encode_message(b"hi", &table, 2, &mut buf), Ok(Written { start: 0, length: 6 }));
/// assert_eq!(buf, [0x04, 0x07, 0x09, 0x02, b'h', b'i', 0xAA]);
/// assert_eq!(encode_message(b"hi", &table, 2, &mut []).unwrap_err().needed, 6);
/// ```
pub fn encode_message(
    source: &[u8],
    table: &[u64],
    count: usize,
    buf: &mut [u8],
) -> Result<Written, RefusedWrite> {
    write_by(ffi::capgauze_encode_message, source, table, count, buf)
}

/// Writes it to the buffer's end. Refusals as [`encode_message`]'s.
///
/// ```
/// # use capgauze::{prepend_message, Written, NO_KEY};
/// let table = [1, 0, 7, 0, NO_KEY, 3, 1, 0, 2, NO_KEY];
/// let mut buf = [0xAA; 7];
/// assert_eq!(prepend_message(b"hi", &table, 2, &mut buf), Ok(Written { start: 1, length: 6 }));
/// assert_eq!(buf, [0xAA, 0x04, 0x07, 0x09, 0x02, b'h', b'i']);
/// ```
pub fn prepend_message(
    source: &[u8],
    table: &[u64],
    count: usize,
    buf: &mut [u8],
) -> Result<Written, RefusedWrite> {
    write_by(ffi::capgauze_prepend_message, source, table, count, buf)
}

/// Puts a record with no key behind all of equal or lower tag among the table's first `count`; later ones move up one. The new
/// count.
/// Refusals in order: TooLong for the source; BadRecord for a count above the room; from the first record on BadRecord,
/// then OutOfOrder; BadRecord for the new one; NoRoom.
///
/// ```
/// # use capgauze::{insert, NewRecord, NO_KEY};
/// let mut table = [1, 0, 7, 0, 0, 77, 77, 77, 77, 77];
/// assert_eq!(insert(b"?", &mut table, 1, NewRecord::default()), Ok(2));
/// assert_eq!(table, [0, 0, 0, 0, NO_KEY, 1, 0, 7, 0, 0]);
/// ```
pub fn insert(
    source: &[u8],
    table: &mut [u64],
    count: usize,
    record: NewRecord,
) -> Result<usize, RefusedInsert> {
    let NewRecord { tag, wire_type, value, length } = record;
    let (s, len, to, words) = (source.as_ptr(), source.len(), table.as_mut_ptr(), table.len());
    let answer =
        unsafe { ffi::capgauze_insert(s, len, to, words, count, tag, wire_type, value, length) };
    let index = answer.value as usize;
    accepted(answer.number).map(|()| index).map_err(|refusal| RefusedInsert { refusal, index })
}
