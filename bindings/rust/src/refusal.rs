//! Why a call was refused.
use core::fmt;

/// Why a call was refused.
#[derive(Clone, Copy, Debug, PartialEq, Eq, Hash)]
#[repr(u64)]
pub enum Refusal {
    /// The slice or the end came too soon.
    Truncated = 1,
    /// A varint of 2^64 or more.
    InvalidVarint = 2,
    /// A tag, or a rise of tags, above 4,294,967,295.
    TagOverflowed = 3,
    /// Slice, or bytes to be written, above [`LIMIT`](crate::LIMIT).
    TooLong = 4,
    /// A good message or run with more fields, tags or values than there is room for, a buffer too short, a full table or room.
    NoRoom = 5,
    /// A record that is not good, or not one of the run or of a working copy; a count above the room, an index not below the count.
    BadRecord = 6,
    /// A tag below the one before it.
    OutOfOrder = 7,
    /// A place, start or end above the slice's length.
    BadCap = 8,
    /// A sounding's field of another wire type.
    WrongWireType = 9,
    /// A station, pressure, temperature, depression, wind speed or direction outside its range.
    OutOfRange = 10,
    /// A tag that stands more than once where one field of it is wanted.
    Repeated = 11,
    /// An index or a line of one that may not be used, or that is seen not to be of the message.
    BadIndex = 12,
    /// A sounding without station or launch, or a level without pressure.
    MissingField = 13,
    /// A sounding's first field below the grade taken is a value of all ones, written out.
    NotCanonical = 14,
    /// A sounding's first field below the grade taken has an unknown tag.
    UnknownField = 15,
    /// The library answered a number that has no name here. It is refused all the same. An archive of this version never does: the
    /// one that is linked is of another.
    Unknown = u64::MAX,
}

impl Refusal {
    /// Its number (docs/FORMAT.md, rule R1).
    pub fn number(self) -> u64 {
        self as u64
    }
}

/// A number that is no refusal's.
#[derive(Clone, Copy, Debug, PartialEq, Eq, Hash)]
pub struct UnknownRefusal(
    /// The number.
    pub u64,
);

impl fmt::Display for UnknownRefusal {
    fn fmt(&self, f: &mut fmt::Formatter) -> fmt::Result {
        write!(f, "there is no refusal of number {}", self.0)
    }
}

impl core::error::Error for UnknownRefusal {}

impl TryFrom<u64> for Refusal {
    type Error = UnknownRefusal;

    /// The refusal of a number, as a file or another program has it. 0 is accepted, and so is no refusal.
    ///
    /// ```
    /// # use capgauze::{Refusal, UnknownRefusal};
    /// assert_eq!(Refusal::try_from(11), Ok(Refusal::Repeated));
    /// assert_eq!(Refusal::try_from(0), Err(UnknownRefusal(0)));
    /// assert_eq!(Refusal::try_from(16), Err(UnknownRefusal(16)));
    /// ```
    fn try_from(number: u64) -> Result<Refusal, UnknownRefusal> {
        use Refusal::*;
        Ok(match number {
            1 => Truncated,
            2 => InvalidVarint,
            3 => TagOverflowed,
            4 => TooLong,
            5 => NoRoom,
            6 => BadRecord,
            7 => OutOfOrder,
            8 => BadCap,
            9 => WrongWireType,
            10 => OutOfRange,
            11 => Repeated,
            12 => BadIndex,
            13 => MissingField,
            14 => NotCanonical,
            15 => UnknownField,
            _ => return Err(UnknownRefusal(number)),
        })
    }
}

impl fmt::Display for Refusal {
    fn fmt(&self, f: &mut fmt::Formatter) -> fmt::Result {
        write!(f, "{self:?} ({})", self.number())
    }
}

impl core::error::Error for Refusal {}

/// Where the read that failed began, and how many bytes of a varint it looked at: 0 where it was no varint's. Both are 0 with
/// refusals that are not met in the bytes (TooLong, NoRoom, BadCap).
#[derive(Clone, Copy, Debug, Default, PartialEq, Eq, Hash)]
pub struct Fault {
    /// Where the read began.
    pub place: usize,
    /// The bytes of a varint that it looked at, 1 to 9, or 0.
    pub bytes: usize,
}

/// What a reader of one part was reading.
#[derive(Clone, Copy, Debug, PartialEq, Eq, Hash)]
pub enum Reading {
    /// A varint.
    Varint,
    /// A key.
    Key,
    /// A value.
    Value,
    /// A value that is passed over, with the fields of its tag behind it.
    Skipped,
    /// A key and its value.
    Field,
}

impl Reading {
    fn name(self) -> &'static str {
        match self {
            Reading::Varint => "the varint",
            Reading::Key => "the key",
            Reading::Value => "the value",
            Reading::Skipped => "what is skipped",
            Reading::Field => "the field",
        }
    }
}

/// A reader's refusal in one sentence.
fn tell(
    f: &mut fmt::Formatter,
    refusal: Refusal,
    what: &str,
    place: usize,
    fault: Fault,
) -> fmt::Result {
    let why = match refusal {
        Refusal::Truncated => "ends too soon",
        Refusal::InvalidVarint => "has a varint of 2^64 or more",
        Refusal::TagOverflowed => "has a tag above 4,294,967,295",
        Refusal::TooLong => {
            return write!(f, "{refusal}: the slice has more than {} bytes", crate::LIMIT)
        }
        Refusal::BadCap => {
            return write!(f, "{refusal}: a place, a start or an end is above the slice's length")
        }
        _ => return write!(f, "{refusal}"),
    };
    write!(f, "{refusal}: {what} at {place} {why}; the failing read began at {}", fault.place)?;
    match fault.bytes {
        0 => Ok(()),
        1 => write!(f, " and looked at 1 byte of a varint"),
        n => write!(f, " and looked at {n} bytes of a varint"),
    }
}

macro_rules! refusals {
    ($($(#[$doc:meta])* $name:ident { $($(#[$said:meta])* $word:ident: $kind:ty),* } $tell:expr;)*) => { $(
        $(#[$doc])*
        #[derive(Clone, Copy, Debug, PartialEq, Eq, Hash)]
        pub struct $name {
            /// Why.
            pub refusal: Refusal,
            $($(#[$said])* pub $word: $kind),*
        }

        impl fmt::Display for $name {
            fn fmt(&self, f: &mut fmt::Formatter) -> fmt::Result {
                let tell: fn(&$name, &mut fmt::Formatter) -> fmt::Result = $tell;
                tell(self, f)
            }
        }

        impl core::error::Error for $name {}
    )* };
}

refusals! {
    /// A reader of one part was refused: what it was reading, and the place that it was given.
    ///
    /// ```
    /// let refused = capgauze::decode_varint(&[0x80], 0).unwrap_err();
    /// let said = "Truncated (1): the varint at 0 ends too soon; the failing read began at 0 and looked at 1 byte of a varint";
    /// assert_eq!(refused.to_string(), said);
    /// ```
    RefusedAt {
        /// What it was reading.
        reading: Reading,
        /// The place that it was given.
        place: usize,
        /// The read that failed.
        fault: Fault
    }
        |r, f| tell(f, r.refusal, r.reading.name(), r.place, r.fault);
    /// A reader that takes a last tag was refused; place and last tag are those that it was given.
    RefusedAfter {
        /// What it was reading.
        reading: Reading,
        /// The place that it was given.
        place: usize,
        /// The last tag that it was given.
        last: u32,
        /// The read that failed.
        fault: Fault
    }
        |r, f| tell(f, r.refusal, r.reading.name(), r.place, r.fault);
    /// A message reader was refused. The place is the first byte of the field being read, or of the last field read, if
    /// that one passed the end (the start, if no field was read). With NoRoom the count is the number of fields that need
    /// room; all else is 0.
    ///
    /// ```
    /// let refused = capgauze::read_message(&[0x04, 0x07, 0x00], 0, 3, &mut [0; 8]).unwrap_err();
    /// let said = "Truncated (1): the message's field at 2 ends too soon; the failing read began at 3";
    /// assert_eq!(refused.to_string(), said);
    /// ```
    RefusedRead {
        /// Where the field starts.
        place: usize,
        /// With NoRoom: the fields that need room.
        count: usize,
        /// The read that failed.
        fault: Fault
    }
        |r, f| match r.refusal {
            Refusal::NoRoom => write!(f, "{}: the table has no room for {} fields", r.refusal, r.count),
            _ => tell(f, r.refusal, "the message's field", r.place, r.fault),
        };
    /// Writing was refused: at the record's index, or the room, where the count is above it; else 0. With NoRoom the length
    /// that is needed; else 0.
    RefusedWrite {
        /// The record's index, or the room.
        index: usize,
        /// With NoRoom: the length that is needed.
        needed: usize
    }
        |r, f| match r.refusal {
            Refusal::NoRoom => write!(f, "{}: the buffer is too short for {} bytes", r.refusal, r.needed),
            _ => write!(f, "{}, index {}", r.refusal, r.index),
        };
    /// An insertion was refused: at a record's index, the room where the count is above it, the count where the new record
    /// is not good; else 0.
    RefusedInsert {
        /// The record's index, the room, or the count.
        index: usize
    }
        |r, f| write!(f, "{}, index {}", r.refusal, r.index);
    /// An edit of a working copy was refused: at a record's index, also where there is no such record; the table's room where the
    /// count is above it; else 0.
    RefusedEdit {
        /// The record's index, or the table's room.
        index: usize
    }
        |r, f| write!(f, "{}, index {}", r.refusal, r.index);
}
