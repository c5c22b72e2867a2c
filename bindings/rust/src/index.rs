//! An index beside a stored message: three words a tag ([`Entry`]). `tags` says how many entries are used, and the words behind them are not
//! looked at.
use crate::words::*;
use crate::*;

/// Makes the index of a message, three words a tag: how many tags it has. Half as many entries as the message has bytes
/// always suffice. Refusals in order: TooLong; Truncated, InvalidVarint, TagOverflowed; NoRoom.
///
/// ```
/// # use capgauze::{make_index, Entry, Refusal};
/// let mut index = [77; 7];
/// assert_eq!(make_index(&[0x04, 0x07, 0x00, 0x08, 0x08, 0x09], &mut index), Ok(2));
/// assert_eq!(index, [1, 0, 2, 3, 4, 1, 77]);
/// assert_eq!(Entry::at(&index, 1), Some(Entry { tag: 3, place: 4, count: 1 }));
/// assert_eq!(make_index(&[0x04, 0x07, 0x04], &mut index), Err(Refusal::Truncated));
/// ```
pub fn make_index(s: &[u8], index: &mut [u64]) -> Result<usize, Refusal> {
    let (to, words) = (index.as_mut_ptr(), index.len());
    length(unsafe { ffi::capgauze_make_index(s.as_ptr(), s.len(), to, words) })
}

/// Whether the first `tags` entries are the index of the message: what [`make_index`] would make of it, no more and no
/// less. A message that is refused has none.
///
/// ```
/// # use capgauze::index_fits;
/// assert!(index_fits(&[0x04, 0x07, 0x04, 0x08], &[1, 0, 1, 2, 2, 1], 2));
/// assert!(!index_fits(&[0x04, 0x07, 0x04, 0x08], &[1, 0, 1, 2, 2, 1], 1));
/// assert!(!index_fits(&[0x04, 0x07, 0x00, 0x08], &[1, 0, 1, 2, 2, 1], 2));
/// ```
pub fn index_fits(s: &[u8], index: &[u64], tags: usize) -> bool {
    let (from, words) = (index.as_ptr(), index.len());
    unsafe { ffi::capgauze_index_fits(s.as_ptr(), s.len(), from, words, tags) != 0 }
}

/// The only value of a tag through an index, or `None`: what [`pick`] answers, where the index was made from this message.
/// Only the fields that the index counts of the tag are read, and the first one's own tag is not compared. Refusals in
/// order: BadIndex for an index that may not be used; TooLong; Truncated, InvalidVarint, TagOverflowed as met, with BadIndex
/// where the counted fields do not stand there; Repeated, where more than one is counted.
///
/// ```
/// # use capgauze::{pick_indexed, Refusal, Value};
/// let message = [0x04, 0x07, 0x00, 0x08, 0x08, 0x09];
/// let index = [1, 0, 2, 3, 4, 1];
/// assert_eq!(pick_indexed(&message, &index, 2, 3), Ok(Some(Value::Varint(9))));
/// assert_eq!(pick_indexed(&message, &index, 2, 2), Ok(None));
/// assert_eq!(pick_indexed(&message, &index, 2, 1), Err(Refusal::Repeated));
/// assert_eq!(pick_indexed(&message[..4], &index, 2, 3), Err(Refusal::BadIndex));
/// ```
pub fn pick_indexed(
    s: &[u8],
    index: &[u64],
    tags: usize,
    tag: u32,
) -> Result<Option<Value>, Refusal> {
    let (from, words) = (index.as_ptr(), index.len());
    picked(unsafe { ffi::capgauze_pick_indexed(s.as_ptr(), s.len(), from, words, tags, tag) })
}

/// Writes an index as a line of 2 + 20 · `tags` characters, edition 02, to the front of a buffer, without an end of line:
/// its length. Refusals: BadIndex, also for a place or a count above 16,777,215; NoRoom.
///
/// ```
/// # use capgauze::write_line;
/// let mut line = [b'-'; 24];
/// assert_eq!(write_line(&[10, 4, 1], 1, &mut line), Ok(22));
/// assert_eq!(&line, b"020000000A000004000001--");
/// ```
pub fn write_line(index: &[u64], tags: usize, line: &mut [u8]) -> Result<usize, Refusal> {
    let (from, words) = (index.as_ptr(), index.len());
    length(unsafe { ffi::capgauze_write_line(from, words, tags, line.as_mut_ptr(), line.len()) })
}

/// Reads a line as an index, three words a tag: how many tags it has. `message_len` is the length of the message that the
/// line stands beside. Edition 02, which [`write_line`] writes, is read beside any; edition 01, 16 characters a tag, beside
/// one of up to 65,535 bytes. Refusals: BadIndex for every other line; NoRoom.
///
/// ```
/// # use capgauze::{read_line, Refusal};
/// let mut index = [0; 3];
/// assert_eq!(read_line(b"020000000A000004000001", 6, &mut index), Ok(1));
/// assert_eq!(index, [10, 4, 1]);
/// assert_eq!(read_line(b"020000000a000004000001", 6, &mut index), Err(Refusal::BadIndex));
/// assert_eq!(read_line(b"010000000A00040001", 65_535, &mut index), Ok(1));
/// assert_eq!(read_line(b"010000000A00040001", 65_536, &mut index), Err(Refusal::BadIndex));
/// ```
pub fn read_line(line: &[u8], message_len: usize, index: &mut [u64]) -> Result<usize, Refusal> {
    let (to, words) = (index.as_mut_ptr(), index.len());
    length(unsafe { ffi::capgauze_read_line(line.as_ptr(), line.len(), message_len, to, words) })
}
