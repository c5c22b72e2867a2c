//! Whole messages: read into a table, and looked up in.
use crate::words::*;
use crate::*;

/// Reads the message from a start up to an end into a table. Refusals in order: TooLong, BadCap; Truncated,
/// InvalidVarint, TagOverflowed as met; NoRoom.
///
/// ```
/// # use capgauze::{read_message, Read, Refusal};
/// let mut table = [77; 6];
/// assert_eq!(read_message(&[0x04, 0x07], 0, 2, &mut table), Ok(Read { place: 2, count: 1 }));
/// assert_eq!(table, [1, 0, 7, 0, 0, 77]);
///
/// let refused = read_message(&[0x04, 0x07, 0x00], 0, 3, &mut table).unwrap_err();
/// assert_eq!((refused.refusal, refused.place), (Refusal::Truncated, 2));
/// assert_eq!(table, [1, 0, 7, 0, 0, 77]);
/// ```
pub fn read_message(
    s: &[u8],
    start: usize,
    end: usize,
    table: &mut [u64],
) -> Result<Read, RefusedRead> {
    let (to, words) = (table.as_mut_ptr(), table.len());
    read(unsafe { ffi::capgauze_read_message(s.as_ptr(), s.len(), start, end, to, words) })
}

/// The payload of a record, as a part of the message; the empty part, if the record is not a good LengthDelimited one.
/// The message may have any length.
///
/// ```
/// # use capgauze::{payload_of, Record};
/// let record = Record { tag: 3, wire_type: 1, value: 2, length: 2, key: 0 };
/// assert_eq!(payload_of(&[0x0D, 0x02, 0xC0, 0xDE], record), [0xC0, 0xDE]);
/// assert_eq!(payload_of(&[0x0D, 0x02, 0xC0], record), []);
/// assert_eq!(payload_of(&[0x0D, 0x02, 0xC0, 0xDE], Record { key: 4, ..record }), []);
/// ```
pub fn payload_of(message: &[u8], record: Record) -> &[u8] {
    let Record { tag, wire_type, value, length, key } = record;
    let (s, len) = (message.as_ptr(), message.len());
    let part = unsafe { ffi::capgauze_payload_of(s, len, tag, wire_type, value, length, key) };
    &message[part.start as usize..][..part.length as usize]
}

/// Reads a record's payload as a message in itself: places, payload starts and keys count from its first byte. A record
/// without a payload is the empty message, which is accepted.
///
/// ```
/// # use capgauze::{read_payload, Read, Record};
/// let record = Record { tag: 3, wire_type: 1, value: 2, length: 2, key: 0 };
/// let mut table = [0; 5];
/// assert_eq!(read_payload(&[0x0D, 0x02, 0x04, 0x07], record, &mut table), Ok(Read { place: 2, count: 1 }));
/// assert_eq!(table, [1, 0, 7, 0, 0]);
/// ```
pub fn read_payload(
    message: &[u8],
    record: Record,
    table: &mut [u64],
) -> Result<Read, RefusedRead> {
    let Record { tag, wire_type, value, length, key } = record;
    let (s, len, to, words) = (message.as_ptr(), message.len(), table.as_mut_ptr(), table.len());
    read(unsafe {
        ffi::capgauze_read_payload(s, len, tag, wire_type, value, length, key, to, words)
    })
}

/// Where the parts of a field stand in the message that its record was read from; `None` for a record without a key, or one that
/// is not of this message.
///
/// ```
/// # use capgauze::{field_parts, Parts, Record};
/// let record = Record { tag: 3, wire_type: 1, value: 2, length: 2, key: 0 };
/// let parts = Parts { key: 0, length: Some(1), value: 2, end: 4 };
/// assert_eq!(field_parts(&[0x0D, 0x02, 0xC0, 0xDE], record), Some(parts));
/// ```
pub fn field_parts(message: &[u8], record: Record) -> Option<Parts> {
    if record.key == NO_KEY {
        return None;
    }
    let key = record.key as usize;
    let behind = decode_varint(message, key).ok()?.next;
    let (length, value, end) = match record.field()?.value {
        Value::Varint(_) => (None, behind, decode_varint(message, behind).ok()?.next),
        Value::LengthDelimited { start, length } => {
            (Some(behind), start, start.checked_add(length)?)
        }
        Value::ThirtyTwoBit(_) => (None, behind, behind + 4),
        Value::SixtyFourBit(_) => (None, behind, behind + 8),
    };
    Some(Parts { key, length, value, end })
}

/// The whole field of a record, its key, its length and its value, as a part of the message that the record was read from.
/// `None` as [`field_parts`].
///
/// ```
/// # use capgauze::{field_bytes, Record};
/// let record = Record { tag: 1, wire_type: 0, value: 128, length: 0, key: 2 };
/// assert_eq!(field_bytes(&[0x04, 0x07, 0x00, 0x80, 0x00], record), Some(&[0x00, 0x80, 0x00][..]));
/// ```
pub fn field_bytes(message: &[u8], record: Record) -> Option<&[u8]> {
    let parts = field_parts(message, record)?;
    message.get(parts.key..parts.end)
}

/// Reads the whole message: the only value of a tag, or `None`. Refusals: TooLong, Truncated, InvalidVarint,
/// TagOverflowed; then Repeated, where the tag has more.
///
/// ```
/// # use capgauze::{pick, Refusal, Value};
/// assert_eq!(pick(&[0x04, 0x07, 0x04, 0x08], 2), Ok(Some(Value::Varint(8))));
/// assert_eq!(pick(&[0x04, 0x07, 0x04, 0x08], 3), Ok(None));
/// assert_eq!(pick(&[0x04, 0x07, 0x00, 0x08], 1), Err(Refusal::Repeated));
/// ```
pub fn pick(s: &[u8], tag: u32) -> Result<Option<Value>, Refusal> {
    picked(unsafe { ffi::capgauze_pick(s.as_ptr(), s.len(), tag) })
}

/// Reads the whole message: how many values a tag has, and the one at a number, counted from 0, or `None`. Refusals: TooLong,
/// Truncated, InvalidVarint, TagOverflowed.
///
/// ```
/// # use capgauze::{pick_at, Value};
/// assert_eq!(pick_at(&[0x04, 0x07, 0x00, 0x08], 1, 1), Ok((2, Some(Value::Varint(8)))));
/// assert_eq!(pick_at(&[0x04, 0x07, 0x00, 0x08], 1, 2), Ok((2, None)));
/// ```
pub fn pick_at(s: &[u8], tag: u32, number: usize) -> Result<(usize, Option<Value>), Refusal> {
    let answer = unsafe { ffi::capgauze_pick_at(s.as_ptr(), s.len(), tag, number) };
    accepted(answer.number)?;
    Ok((
        answer.count as usize,
        (answer.found != 0).then(|| value(answer.kind, answer.value, answer.length)),
    ))
}

/// Reads up to the first key above the tag, whose value it leaves: how many keys were read, and the only value of the tag before
/// it, or `None`. Refusals: as [`pick`], as far as it read.
///
/// ```
/// # use capgauze::{pick, pick_early, Refusal, Value};
/// let cut = [0x04, 0x07, 0x04]; // tag 1 is 7, and tag 2 has lost its value
/// assert_eq!(pick_early(&cut, 1), Ok((2, Some(Value::Varint(7)))));
/// assert_eq!(pick(&cut, 1), Err(Refusal::Truncated));
/// ```
pub fn pick_early(s: &[u8], tag: u32) -> Result<(usize, Option<Value>), Refusal> {
    let answer = unsafe { ffi::capgauze_pick_early(s.as_ptr(), s.len(), tag) };
    accepted(answer.number)?;
    Ok((
        answer.keys as usize,
        (answer.found != 0).then(|| value(answer.kind, answer.value, answer.length)),
    ))
}
