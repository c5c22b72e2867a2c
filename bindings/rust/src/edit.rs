//! A working copy: a table over one room of bytes, in which all its payloads lie. No two of them overlap, and every key word is [`NO_KEY`].
//! Refusals of all three, in order: TooLong for the room; BadRecord for a count above the table's room; from the first record on BadRecord,
//! then OutOfOrder; BadRecord for a payload that overlaps an earlier one; BadRecord for a key word; then those of each.
use crate::words::*;
use crate::*;

/// Takes out the record at an index, of any type; later ones move down one. The new count. The words from the old last record on
/// stay. Refusals: as for any edit, TooLong, BadRecord, OutOfOrder; BadRecord for an index not below the count.
///
/// ```
/// # use capgauze::{remove_record, NO_KEY};
/// let mut table = [1, 0, 7, 0, NO_KEY, 3, 1, 0, 2, NO_KEY];
/// assert_eq!(remove_record(b"hi", &mut table, 2, 0), Ok(1));
/// assert_eq!(table[..5], [3, 1, 0, 2, NO_KEY]);
/// assert_eq!(remove_record(b"hi", &mut table, 1, 1).unwrap_err().index, 1);
/// ```
pub fn remove_record(
    room: &[u8],
    table: &mut [u64],
    count: usize,
    index: usize,
) -> Result<usize, RefusedEdit> {
    let (from, len, to, words) = (room.as_ptr(), room.len(), table.as_mut_ptr(), table.len());
    edited(unsafe { ffi::capgauze_remove_record(from, len, to, words, count, index) })
}

/// Gives the payload at an index other bytes. They go behind the payload that ends last; if they do not fit there, the other
/// payloads are packed at the room's front in order of place, and the bytes go behind them. The count. Refusals: as for any edit;
/// BadRecord for an index not below the count, or for a record that is no payload; NoRoom, exactly if the other payloads' bytes and
/// the new ones are more than the room.
///
/// ```
/// # use capgauze::{replace_payload, Refusal, NO_KEY};
/// let (mut room, mut table) = (*b"..hi", [3, 1, 2, 2, NO_KEY]);
/// assert_eq!(replace_payload(&mut room, &mut table, 1, 0, b"you"), Ok(1));
/// assert_eq!((&room, table), (b"youi", [3, 1, 0, 3, NO_KEY]));
/// assert_eq!(replace_payload(&mut room, &mut table, 1, 0, b"hello").unwrap_err().refusal, Refusal::NoRoom);
/// ```
pub fn replace_payload(
    room: &mut [u8],
    table: &mut [u64],
    count: usize,
    index: usize,
    bytes: &[u8],
) -> Result<usize, RefusedEdit> {
    let (into, room_len, to, words) =
        (room.as_mut_ptr(), room.len(), table.as_mut_ptr(), table.len());
    let (from, len) = (bytes.as_ptr(), bytes.len());
    edited(unsafe {
        ffi::capgauze_replace_payload(into, room_len, to, words, count, index, from, len)
    })
}

/// Puts a payload behind all records of equal or lower tag; later ones move up one. Its bytes go where [`replace_payload`] has
/// them. The new count. Refusals: as for any edit; NoRoom, exactly if the payloads' bytes and the new ones are more than the room,
/// or the table is full.
///
/// ```
/// # use capgauze::{insert_payload, NO_KEY};
/// let (mut room, mut table) = (*b"..hi", [3, 1, 2, 2, NO_KEY, 77, 77, 77, 77, 77]);
/// assert_eq!(insert_payload(&mut room, &mut table, 1, 0, b"?"), Ok(2));
/// // packed, since nothing fits behind `hi`
/// assert_eq!((&room, table), (b"hi?i", [0, 1, 2, 1, NO_KEY, 3, 1, 0, 2, NO_KEY]));
/// ```
pub fn insert_payload(
    room: &mut [u8],
    table: &mut [u64],
    count: usize,
    tag: u32,
    bytes: &[u8],
) -> Result<usize, RefusedEdit> {
    let (into, room_len, to, words) =
        (room.as_mut_ptr(), room.len(), table.as_mut_ptr(), table.len());
    let (from, len) = (bytes.as_ptr(), bytes.len());
    edited(unsafe {
        ffi::capgauze_insert_payload(into, room_len, to, words, count, tag, from, len)
    })
}
