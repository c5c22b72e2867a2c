//! A working copy that owns its room and its table.
use super::written::with_room;
use crate::*;
use alloc::{vec, vec::Vec};

/// A message that is edited, for hours if need be: its records by rising tag, and a room in which all its payloads lie. It takes
/// no more memory than it was given; bytes that an edit frees are used again.
///
/// ```
/// use capgauze::{Refusal, WorkingCopy};
///
/// let mut copy = WorkingCopy::new(8, 3);
/// copy.insert(3, b"wind")?;
/// copy.insert(1, b"calm")?;
/// copy.insert_varint(2, 7)?;
/// assert_eq!((copy.len(), copy.spare()), (3, 0));
///
/// copy.remove(2)?; // the four bytes of `wind` are free
/// copy.replace(0, b"storm")?;
/// assert_eq!(copy.payload(0), Some(&b"storm"[..]));
/// assert_eq!(copy.replace(0, b"hurricane").unwrap_err().refusal, Refusal::NoRoom);
/// assert_eq!(copy.message().unwrap(), b"\x05\x05storm\x04\x07");
/// # Ok::<(), capgauze::RefusedEdit>(())
/// ```
#[derive(Clone, Debug)]
pub struct WorkingCopy {
    room: Vec<u8>,
    table: Vec<u64>,
    count: usize,
}

impl WorkingCopy {
    /// An empty copy, with room for payloads of so many bytes in all, and for so many records. With more than
    /// [`LIMIT`] bytes every edit of it is refused as TooLong.
    pub fn new(bytes: usize, records: usize) -> WorkingCopy {
        WorkingCopy { room: vec![0; bytes], table: vec![0; RECORD_WORDS * records], count: 0 }
    }

    /// A copy of a message, with room for so many bytes and records in all, or for those that the message has, if they are more.
    /// Refusals: as [`read_message`](crate::read_message), without NoRoom.
    ///
    /// ```
    /// # use capgauze::WorkingCopy;
    /// let mut copy = WorkingCopy::of(&[0x04, 0x05, 0x09, 0x02, 0xC0, 0xDE], 0, 0)?;
    /// copy.replace(1, &[1, 2, 3, 4, 5, 6]).unwrap(); // as many as the message had
    /// assert_eq!(copy.message().unwrap(), [0x04, 0x05, 0x09, 0x06, 1, 2, 3, 4, 5, 6]);
    /// # Ok::<(), capgauze::RefusedRead>(())
    /// ```
    pub fn of(message: &[u8], bytes: usize, records: usize) -> Result<WorkingCopy, RefusedRead> {
        let most = message.len().min(LIMIT) / 2; // a field takes two bytes
        let mut table = vec![0; RECORD_WORDS * most];
        let count = read_message(message, 0, message.len(), &mut table)?.count;
        table.resize(RECORD_WORDS * records.max(count), 0);
        table.shrink_to_fit();
        for record in table.chunks_exact_mut(RECORD_WORDS) {
            record[RECORD_WORDS - 1] = NO_KEY;
        }
        let mut room = message.to_vec();
        room.resize(bytes.max(message.len()), 0);
        Ok(WorkingCopy { room, table, count })
    }

    /// How many records it has.
    pub fn len(&self) -> usize {
        self.count
    }

    /// Whether it has none.
    pub fn is_empty(&self) -> bool {
        self.count == 0
    }

    /// How many bytes more its payloads may have: what they leave of the room.
    pub fn spare(&self) -> usize {
        let live: usize =
            (0..self.count).filter_map(|index| self.payload(index)).map(<[u8]>::len).sum();
        self.room.len() - live
    }

    /// The record at an index. A payload's start may be another one after each edit.
    pub fn get(&self, index: usize) -> Option<Record> {
        if index < self.count {
            Record::at(&self.table, index)
        } else {
            None
        }
    }

    /// Its records, by rising tag.
    pub fn records(&self) -> impl Iterator<Item = Record> + '_ {
        (0..self.count).filter_map(|index| self.get(index))
    }

    /// The payload at an index; `None` of another type, and past the last record.
    pub fn payload(&self, index: usize) -> Option<&[u8]> {
        let record = self.get(index)?;
        (record.wire_type == WireType::LengthDelimited as u64)
            .then(|| payload_of(&self.room, record))
    }

    /// Takes out the record at an index, of any type. Refusal: BadRecord, if there is none.
    pub fn remove(&mut self, index: usize) -> Result<(), RefusedEdit> {
        self.count = remove_record(&self.room, &mut self.table, self.count, index)?;
        Ok(())
    }

    /// Gives the payload at an index other bytes. Refusals: BadRecord, if there is none at that index; NoRoom, exactly if they
    /// are more than [`spare`](WorkingCopy::spare) and its old bytes.
    pub fn replace(&mut self, index: usize, bytes: &[u8]) -> Result<(), RefusedEdit> {
        self.count = replace_payload(&mut self.room, &mut self.table, self.count, index, bytes)?;
        Ok(())
    }

    /// Puts a payload behind all records of equal or lower tag. Refusal: NoRoom, exactly if the bytes are more than
    /// [`spare`](WorkingCopy::spare), or there is no room for a record.
    pub fn insert(&mut self, tag: u32, bytes: &[u8]) -> Result<(), RefusedEdit> {
        self.count = insert_payload(&mut self.room, &mut self.table, self.count, tag, bytes)?;
        Ok(())
    }

    /// Puts a number behind all records of equal or lower tag. Refusal: NoRoom for a record.
    ///
    /// ```
    /// # use capgauze::{Refusal, WorkingCopy};
    /// let mut copy = WorkingCopy::new(0, 2);
    /// copy.insert_fixed32(7, 5)?;
    /// copy.insert_varint(0, 128)?;
    /// assert_eq!(copy.message().unwrap(), [0x00, 0x80, 0x00, 0x1E, 0x05, 0x00, 0x00, 0x00]);
    /// assert_eq!(copy.insert_fixed64(7, 5).unwrap_err().refusal, Refusal::NoRoom);
    /// # Ok::<(), capgauze::RefusedEdit>(())
    /// ```
    pub fn insert_varint(&mut self, tag: u32, number: u64) -> Result<(), RefusedEdit> {
        self.insert_number(tag, Value::Varint(number))
    }

    /// Puts a number of four bytes in, as [`insert_varint`](WorkingCopy::insert_varint).
    pub fn insert_fixed32(&mut self, tag: u32, number: u32) -> Result<(), RefusedEdit> {
        self.insert_number(tag, Value::ThirtyTwoBit(number))
    }

    /// Puts a number of eight bytes in, as [`insert_varint`](WorkingCopy::insert_varint).
    pub fn insert_fixed64(&mut self, tag: u32, number: u64) -> Result<(), RefusedEdit> {
        self.insert_number(tag, Value::SixtyFourBit(number))
    }

    /// Not a payload, whose bytes might lie in another's.
    fn insert_number(&mut self, tag: u32, value: Value) -> Result<(), RefusedEdit> {
        let record = Field { tag, value }.into();
        let answer = insert(&self.room, &mut self.table, self.count, record);
        self.count =
            answer.map_err(|RefusedInsert { refusal, index }| RefusedEdit { refusal, index })?;
        Ok(())
    }

    /// Gives it room for so many bytes and records more.
    pub fn grow(&mut self, bytes: usize, records: usize) {
        self.room.resize(self.room.len() + bytes, 0);
        self.table.resize(self.table.len() + RECORD_WORDS * records, 0);
    }

    /// Its message: what a plain list with the same edits would be written as. Refusal: TooLong.
    pub fn message(&self) -> Result<Vec<u8>, RefusedWrite> {
        with_room(|buf| self.encode(buf))
    }

    /// Writes its message to a buffer's front. Refusals: TooLong; NoRoom, with the length needed.
    pub fn encode(&self, buf: &mut [u8]) -> Result<Written, RefusedWrite> {
        encode_message(&self.room, &self.table, self.count, buf)
    }

    /// The room that the payloads lie in, and the table, whose first records they are, as the functions of this crate take them.
    pub fn parts(&self) -> (&[u8], &[u64]) {
        (&self.room, &self.table)
    }
}
