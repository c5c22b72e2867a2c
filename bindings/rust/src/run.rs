//! Packed runs: values of one wire type, one behind the other and without keys. A run is all of a slice, which is a payload as a rule. Each
//! reader reads the whole run.
use crate::words::*;
use crate::*;

/// How many values of a wire type a run has. Refusals in order: TooLong; Truncated, InvalidVarint as met.
///
/// ```
/// # use capgauze::{run_count, Refusal, WireType};
/// assert_eq!(run_count(&[0x05, 0x80, 0x00], WireType::Varint), Ok(2));
/// assert_eq!(run_count(&[0x05, 0x80, 0x00], WireType::ThirtyTwoBit), Err(Refusal::Truncated));
/// assert_eq!(run_count(&[], WireType::ThirtyTwoBit), Ok(0));
/// ```
pub fn run_count(s: &[u8], wire_type: WireType) -> Result<usize, Refusal> {
    length(unsafe { ffi::capgauze_run_count(s.as_ptr(), s.len(), wire_type as u64) })
}

/// The value at a number of a run, counted from 0, or `None` past the last. Refusals as [`run_count`]'s, wherever in the run.
///
/// ```
/// # use capgauze::{run_value, Refusal, Value, WireType};
/// assert_eq!(run_value(&[0x05, 0x80, 0x00], WireType::Varint, 1), Ok(Some(Value::Varint(128))));
/// assert_eq!(run_value(&[0x05, 0x80, 0x00], WireType::Varint, 2), Ok(None));
/// assert_eq!(run_value(&[0x05, 0x80], WireType::Varint, 0), Err(Refusal::Truncated));
/// let payload = Value::LengthDelimited { start: 1, length: 1 };
/// assert_eq!(run_value(&[0x01, 0xAA, 0x00], WireType::LengthDelimited, 0), Ok(Some(payload)));
/// ```
pub fn run_value(s: &[u8], wire_type: WireType, number: usize) -> Result<Option<Value>, Refusal> {
    picked(unsafe { ffi::capgauze_run_value(s.as_ptr(), s.len(), wire_type as u64, number) })
}

/// Reads the values of a run as records of tag 0, with no key, into a table: how many they are. As many records as the run has
/// bytes always suffice. Refusals in order: as [`run_count`]'s; NoRoom.
///
/// ```
/// # use capgauze::{read_run, Refusal, WireType, NO_KEY};
/// let mut table = [77; 11];
/// assert_eq!(read_run(&[0x05, 0x80, 0x00], WireType::Varint, &mut table), Ok(2));
/// assert_eq!(table, [0, 0, 5, 0, NO_KEY, 0, 0, 128, 0, NO_KEY, 77]);
/// assert_eq!(read_run(&[0x05, 0x06, 0x07], WireType::Varint, &mut table), Err(Refusal::NoRoom));
/// ```
pub fn read_run(s: &[u8], wire_type: WireType, table: &mut [u64]) -> Result<usize, Refusal> {
    let (kind, to, words) = (wire_type as u64, table.as_mut_ptr(), table.len());
    length(unsafe { ffi::capgauze_read_run(s.as_ptr(), s.len(), kind, to, words) })
}

/// Writes the values of the table's first `count` records, all of tag 0 and of the wire type, as a run to the buffer's front;
/// payloads are taken from the source. Refusals in order: TooLong for the source; BadRecord for a count above the room; from
/// the first record on BadRecord, if it is not good, of another type or of another tag; TooLong for the output; NoRoom, with
/// the length needed.
///
/// ```
/// # use capgauze::{write_run, WireType, Written, NO_KEY};
/// let table = [0, 0, 5, 0, NO_KEY, 0, 0, 128, 0, NO_KEY];
/// let mut buf = [0xAA; 4];
/// assert_eq!(write_run(b"", &table, 2, WireType::Varint, &mut buf), Ok(Written { start: 0, length: 3 }));
/// assert_eq!(buf, [0x05, 0x80, 0x00, 0xAA]);
/// assert_eq!(write_run(b"", &table, 2, WireType::Varint, &mut []).unwrap_err().needed, 3);
/// ```
pub fn write_run(
    source: &[u8],
    table: &[u64],
    count: usize,
    wire_type: WireType,
    buf: &mut [u8],
) -> Result<Written, RefusedWrite> {
    let (s, len, from, words) = (source.as_ptr(), source.len(), table.as_ptr(), table.len());
    let (kind, to, room) = (wire_type as u64, buf.as_mut_ptr(), buf.len());
    written(unsafe { ffi::capgauze_write_run(s, len, from, words, count, kind, to, room) })
}
