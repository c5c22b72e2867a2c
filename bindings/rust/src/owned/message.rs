//! A message that owns its table.
use crate::*;
use alloc::{vec, vec::Vec};

/// A message that was read whole: its bytes, which are lent, and the table of its records, which it owns, 40 bytes a field.
///
/// ```
/// use capgauze::{Message, Refusal, Value};
///
/// let bytes = [0x04, 0x05, 0x05, 0x02, 0x04, 0x07];
/// let message = Message::read(&bytes)?;
/// for field in message.fields() {
///     match field.value {
///         Value::LengthDelimited { start, length } => assert_eq!((field.tag, start, length), (2, 4, 2)),
///         value => assert_eq!((field.tag, value), (1, Value::Varint(5))),
///     }
/// }
/// // a payload that is a message in itself
/// let inner = Message::read(message.payload(1).unwrap())?;
/// assert_eq!(inner.pick(1), Ok(Some(Value::Varint(7))));
///
/// let refused = Message::read(&bytes[..5]).unwrap_err();
/// assert_eq!((refused.refusal, refused.place), (Refusal::Truncated, 2));
/// # Ok::<(), capgauze::RefusedRead>(())
/// ```
#[derive(Clone, Debug, PartialEq, Eq, Hash)]
pub struct Message<'a> {
    bytes: &'a [u8],
    table: Vec<u64>,
}

impl<'a> Message<'a> {
    /// Reads a whole message. It is gone through twice: its fields are counted, and read into a table of that size. Refusals: as
    /// [`read_message`], without NoRoom.
    pub fn read(bytes: &'a [u8]) -> Result<Message<'a>, RefusedRead> {
        let mut table = Vec::new();
        if let Err(refused) = read_message(bytes, 0, bytes.len(), &mut []) {
            if refused.refusal != Refusal::NoRoom {
                return Err(refused);
            }
            table = vec![0; RECORD_WORDS * refused.count];
            read_message(bytes, 0, bytes.len(), &mut table)?;
        }
        Ok(Message { bytes, table })
    }

    /// The bytes that it was read from.
    pub fn bytes(&self) -> &'a [u8] {
        self.bytes
    }

    /// How many fields it has.
    pub fn len(&self) -> usize {
        self.table.len() / RECORD_WORDS
    }

    /// Whether it has none.
    pub fn is_empty(&self) -> bool {
        self.table.is_empty()
    }

    /// Its records, in their order: the words of each field and the place of its key.
    ///
    /// ```
    /// # use capgauze::{field_bytes, Message};
    /// let message = Message::read(&[0x04, 0x07, 0x00, 0x80, 0x00])?;
    /// let last = message.records().last().unwrap();
    /// assert_eq!((last.tag, last.value, last.key), (1, 128, 2));
    /// assert_eq!(field_bytes(message.bytes(), last), Some(&[0x00, 0x80, 0x00][..]));
    /// # Ok::<(), capgauze::RefusedRead>(())
    /// ```
    pub fn records(&self) -> impl DoubleEndedIterator<Item = Record> + '_ {
        self.table.chunks_exact(RECORD_WORDS).filter_map(|row| Record::at(row, 0))
    }

    /// Its fields, in their order: tags and values.
    pub fn fields(&self) -> impl DoubleEndedIterator<Item = Field> + '_ {
        self.records().filter_map(|record| record.field())
    }

    /// The record at an index.
    pub fn record(&self, index: usize) -> Option<Record> {
        Record::at(&self.table, index)
    }

    /// The field at an index.
    pub fn field(&self, index: usize) -> Option<Field> {
        self.record(index)?.field()
    }

    /// The payload at an index; `None` of another type, and past the last field.
    pub fn payload(&self, index: usize) -> Option<&'a [u8]> {
        let record = self.record(index)?;
        (record.wire_type == WireType::LengthDelimited as u64)
            .then(|| payload_of(self.bytes, record))
    }

    /// The only value of a tag, or `None` ([`pick`]). Refusal: Repeated.
    pub fn pick(&self, tag: u32) -> Result<Option<Value>, Refusal> {
        pick(self.bytes, tag)
    }

    /// The table, five words a record, as the functions of this crate take it.
    pub fn table(&self) -> &[u64] {
        &self.table
    }
}
