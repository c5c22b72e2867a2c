//! What goes in and what comes out: values, records, levels.

/// The four wire types.
#[derive(Clone, Copy, Debug, PartialEq, Eq, Hash)]
pub enum WireType {
    /// A number in one to nine bytes.
    Varint = 0,
    /// A length as a varint, and so many bytes: a payload.
    LengthDelimited = 1,
    /// Four bytes, the lowest first.
    ThirtyTwoBit = 2,
    /// Eight bytes, the lowest first.
    SixtyFourBit = 3,
}

/// A field's value. A payload is a part of the message: where it starts, and its length.
#[derive(Clone, Copy, Debug, PartialEq, Eq, Hash)]
pub enum Value {
    /// A number.
    Varint(u64),
    /// A payload.
    LengthDelimited {
        /// The place of its first byte.
        start: usize,
        /// How many bytes it has.
        length: usize,
    },
    /// A number of four bytes.
    ThirtyTwoBit(u32),
    /// A number of eight bytes.
    SixtyFourBit(u64),
}

/// A field: its tag and one of four values.
#[derive(Clone, Copy, Debug, PartialEq, Eq, Hash)]
pub struct Field {
    /// Its tag.
    pub tag: u32,
    /// Its value.
    pub value: Value,
}

/// A key: the tag that it gives, and the wire type of the value behind it.
#[derive(Clone, Copy, Debug, PartialEq, Eq, Hash)]
pub struct Key {
    /// The tag.
    pub tag: u32,
    /// The wire type.
    pub wire_type: WireType,
}

/// What was read, and the place after it.
#[derive(Clone, Copy, Debug, PartialEq, Eq, Hash)]
pub struct Decoded<T> {
    /// What was read.
    pub value: T,
    /// The place after it.
    pub next: usize,
}

/// An accepted message: the end reached, and the number of its fields.
#[derive(Clone, Copy, Debug, PartialEq, Eq, Hash)]
pub struct Read {
    /// The end reached.
    pub place: usize,
    /// The number of its fields.
    pub count: usize,
}

/// A written message: where it starts in the buffer, and its length.
#[derive(Clone, Copy, Debug, PartialEq, Eq, Hash)]
pub struct Written {
    /// Where it starts in the buffer.
    pub start: usize,
    /// Its length.
    pub length: usize,
}

/// A record: five words of a table. Any words are a record; a good one has a tag up to 4,294,967,295, a wire type's
/// number, the length word of its type (0, the payload's length, 4, 8), a four-byte value below 2^32, a payload inside
/// its source, and a key that is [`NO_KEY`] or a place inside its source. What is written of it does not hang on its key.
#[derive(Clone, Copy, Debug, PartialEq, Eq, Hash)]
pub struct Record {
    /// The tag.
    pub tag: u64,
    /// The wire type's number.
    pub wire_type: u64,
    /// The value, or the payload's start.
    pub value: u64,
    /// 0, the payload's length, 4 or 8.
    pub length: u64,
    /// Where the field's key starts, or [`NO_KEY`].
    pub key: u64,
}

/// The words of a record.
pub const RECORD_WORDS: usize = 5;

/// The key word of a record that has none: it was put in by hand, or read from a run.
pub const NO_KEY: u64 = u64::MAX;

/// A record that is put in by hand: it has no key.
#[derive(Clone, Copy, Debug, Default, PartialEq, Eq, Hash)]
pub struct NewRecord {
    /// The tag.
    pub tag: u64,
    /// The wire type's number.
    pub wire_type: u64,
    /// The value, or the payload's start.
    pub value: u64,
    /// 0, the payload's length, 4 or 8.
    pub length: u64,
}

/// Where the parts of a field start in its message, and where it ends.
#[derive(Clone, Copy, Debug, PartialEq, Eq, Hash)]
pub struct Parts {
    /// The key.
    pub key: usize,
    /// The length of a payload; other values have none.
    pub length: Option<usize>,
    /// The value, or the payload.
    pub value: usize,
    /// The end of the field.
    pub end: usize,
}

impl Record {
    /// The record at an index of a table, if the table has room for it.
    ///
    /// ```
    /// # use capgauze::Record;
    /// let table = [3, 1, 12, 2, 10, 77];
    /// assert_eq!(Record::at(&table, 0), Some(Record { tag: 3, wire_type: 1, value: 12, length: 2, key: 10 }));
    /// assert_eq!(Record::at(&table, 1), None);
    /// ```
    pub fn at(table: &[u64], index: usize) -> Option<Record> {
        let row = table.chunks_exact(RECORD_WORDS).nth(index)?;
        Some(Record { tag: row[0], wire_type: row[1], value: row[2], length: row[3], key: row[4] })
    }

    /// The field that a good record stands for. A record whose tag, type or four-byte value does not fit stands for
    /// none; whether its payload or its key lies in a source is not looked at.
    pub fn field(&self) -> Option<Field> {
        let tag = u32::try_from(self.tag).ok()?;
        let value = match (self.wire_type, self.length) {
            (0, 0) => Value::Varint(self.value),
            (1, length) => {
                Value::LengthDelimited { start: self.value as usize, length: length as usize }
            }
            (2, 4) => Value::ThirtyTwoBit(u32::try_from(self.value).ok()?),
            (3, 8) => Value::SixtyFourBit(self.value),
            _ => return None,
        };
        Some(Field { tag, value })
    }

    #[cfg(feature = "alloc")]
    pub(crate) fn words(&self) -> [u64; RECORD_WORDS] {
        [self.tag, self.wire_type, self.value, self.length, self.key]
    }
}

/// Tag 0, the number 0, no key.
impl Default for Record {
    fn default() -> Record {
        NewRecord::default().into()
    }
}

impl From<NewRecord> for Record {
    fn from(record: NewRecord) -> Record {
        let NewRecord { tag, wire_type, value, length } = record;
        Record { tag, wire_type, value, length, key: NO_KEY }
    }
}

impl From<Record> for NewRecord {
    /// Without its key.
    fn from(record: Record) -> NewRecord {
        let Record { tag, wire_type, value, length, .. } = record;
        NewRecord { tag, wire_type, value, length }
    }
}

impl From<Field> for NewRecord {
    fn from(field: Field) -> NewRecord {
        Record::from(field).into()
    }
}

impl From<Field> for Record {
    /// With no key.
    ///
    /// ```
    /// # use capgauze::{Field, Record, Value};
    /// let field = Field { tag: 7, value: Value::ThirtyTwoBit(5) };
    /// assert_eq!(Record::from(field), Record { tag: 7, wire_type: 2, value: 5, length: 4, key: capgauze::NO_KEY });
    /// assert_eq!(Record::from(field).field(), Some(field));
    /// ```
    fn from(field: Field) -> Record {
        let (wire_type, value, length) = match field.value {
            Value::Varint(value) => (0, value, 0),
            Value::LengthDelimited { start, length } => (1, start as u64, length as u64),
            Value::ThirtyTwoBit(value) => (2, value.into(), 4),
            Value::SixtyFourBit(value) => (3, value, 8),
        };
        Record { tag: field.tag.into(), wire_type, value, length, key: NO_KEY }
    }
}

/// An entry of an index: a tag, the place of the first key of that tag, and how many fields the tag has. Any words are an
/// entry; a good one has a tag up to 4,294,967,295, a place inside its message, and a count above 0.
#[derive(Clone, Copy, Debug, Default, PartialEq, Eq, Hash)]
pub struct Entry {
    /// The tag.
    pub tag: u64,
    /// Where the first key of the tag starts.
    pub place: u64,
    /// How many fields the tag has.
    pub count: u64,
}

/// The words of an index's entry.
pub const INDEX_WORDS: usize = 3;

impl Entry {
    /// The entry at a number of an index, if the index has room for it.
    ///
    /// ```
    /// # use capgauze::Entry;
    /// let index = [3, 10, 2, 77];
    /// assert_eq!(Entry::at(&index, 0), Some(Entry { tag: 3, place: 10, count: 2 }));
    /// assert_eq!(Entry::at(&index, 1), None);
    /// ```
    pub fn at(index: &[u64], number: usize) -> Option<Entry> {
        let words = index.chunks_exact(INDEX_WORDS).nth(number)?;
        Some(Entry { tag: words[0], place: words[1], count: words[2] })
    }
}

/// Which of two messages supplies a tag: the correction, if it has a field of it, else the original.
#[derive(Clone, Copy, Debug, PartialEq, Eq, Hash)]
pub enum Supplier {
    /// The original.
    Original = 1,
    /// The correction.
    Correction = 2,
}

/// What a sounding says of itself: its station, its launch in seconds, and the number of its levels.
#[derive(Clone, Copy, Debug, PartialEq, Eq, Hash)]
pub struct Sounding {
    /// Who sent it.
    pub station: u64,
    /// When the balloon rose, in seconds.
    pub launch: u64,
    /// The number of its levels.
    pub levels: usize,
}

/// A level: its pressure in Pa; temperature and dew point depression in tenths of a degree, `None` where missing.
#[derive(Clone, Copy, Debug, PartialEq, Eq, Hash)]
pub struct Level {
    /// In Pa.
    pub pressure: u64,
    /// In tenths of a degree.
    pub temperature: Option<i64>,
    /// The dew point's, in tenths of a degree.
    pub depression: Option<u64>,
}

impl Level {
    /// The level at an index of a table that [`read_sounding`](crate::read_sounding) filled, if the table has it.
    pub fn at(levels: &[u64], index: usize) -> Option<Level> {
        let words = levels.chunks_exact(crate::LEVEL_WORDS).nth(index)?;
        Some(Level {
            pressure: words[0],
            temperature: (words[1] != 0).then(|| crate::u64_to_signed(words[2])),
            depression: (words[3] != 0).then(|| words[4]),
        })
    }
}

/// The grade of a field, and of a sounding the least of its fields' and its levels' fields'. They are ordered.
#[derive(Clone, Copy, Debug, PartialEq, Eq, PartialOrd, Ord, Hash)]
pub enum Grade {
    /// A value of all ones is written out, where leaving the tag away would do.
    NotCanonical = 0,
    /// The tag is unknown.
    HasExtensions = 1,
    /// A known tag, and no all-ones value.
    Canonical = 2,
}

/// What a sounding of the second edition says of itself, and the grade that it reaches.
#[derive(Clone, Copy, Debug, PartialEq, Eq, Hash)]
pub struct Graded {
    /// Who sent it.
    pub station: u64,
    /// When the balloon rose, in seconds.
    pub launch: u64,
    /// The number of its levels.
    pub levels: usize,
    /// The least grade of all its fields.
    pub grade: Grade,
}

/// A level of the second edition: one of the first, and wind. The speed is in tenths of m/s, the direction in degrees; `None`
/// where missing.
#[derive(Clone, Copy, Debug, PartialEq, Eq, Hash)]
pub struct Windy {
    /// What a level of the first edition has.
    pub level: Level,
    /// In tenths of m/s.
    pub speed: Option<u64>,
    /// In degrees.
    pub direction: Option<u64>,
}

impl Windy {
    /// The level at an index of a table that [`read_graded`](crate::read_graded) filled, if the table has it.
    pub fn at(levels: &[u64], index: usize) -> Option<Windy> {
        let words = levels.chunks_exact(crate::GRADED_WORDS).nth(index)?;
        let (first, wind) = words.split_at(crate::LEVEL_WORDS);
        Some(Windy {
            level: Level::at(first, 0)?,
            speed: (wind[0] != 0).then(|| wind[1]),
            direction: (wind[2] != 0).then(|| wind[3]),
        })
    }
}
