//! Stand-in for the missing `src/encoding/underived`, of which the held text uses no name. It is
//! the oracle's door: as a module below `encoding` it may call what is private there, so no held
//! line had to change. It calls held functions and hands out what they answer, as numbers; it
//! decides nothing about a message itself.
//!
//! The functions hang on `Blob`, the one name of a missing file that the crate makes public.
//! Places and ends must lie inside the slice; wire types are 0 to 3.

// The bench's peers stand at the same door, in a file of their own.
#[cfg(feature = "peers")]
#[path = "../../../../bench/peers/rust.rs"]
mod peers;

use super::message::{borrow_merge, borrow_merge_distinguished, merge, merge_distinguished};
use super::opaque::{OpaqueMessage, OpaqueValue};
use super::varint::{i64_to_unsigned, u64_to_signed};
use super::{
    const_varint, decode_varint, encode_varint, encoded_len_varint, prepend_varint, skip_field,
    Canonicity, Capped, DecodeContext, RawMessage, RawMessageBorrowDecoder, RawMessageDecoder,
    RestrictedDecodeContext, RuntimeTagMeasurer, TagMeasurer, TagReader, TagRevWriter, TagWriter,
    WireType,
};
use crate::buf::{ReverseBuf, ReverseBuffer};
use crate::types::Blob;
use crate::{decode_length_delimiter, DecodeError, DecodeErrorKind};
use alloc::borrow::Cow;
use alloc::vec::Vec;
use bytes::{Buf, BufMut};

/// A field as a record (rule T1): tag, wire type, value or payload's start, length.
type Record = [u64; 4];

type Answer<T> = Result<T, DecodeErrorKind>;

/// What was written forwards, what was prepended, and the length that was measured.
type Written = (Vec<u8>, Vec<u8>, usize);

// ---- Messages ----

impl Blob {
    /// Reads a message from `start` up to `end` by `borrow_merge`: its records and the place
    /// reached, or the error's name and the place that our rules give the refusal. (The Rust's
    /// errors have no place; it follows from where the fields that were read ended.)
    pub fn read(
        s: &[u8],
        start: usize,
        end: usize,
    ) -> Result<(Vec<Record>, usize), (DecodeErrorKind, usize)> {
        let mut watched = Watched {
            message: OpaqueMessage::new(),
            len: s.len(),
            ends: Vec::new(),
        };
        let mut buf = &s[start..];
        let capped = cap(&mut buf, s.len() - end);
        match borrow_merge(&mut watched, capped, DecodeContext::default()) {
            Ok(()) => Ok((records(s, &watched.message), place(s, buf))),
            Err(err) => {
                let ends = &mut watched.ends;
                if ends.last().is_some_and(|&last| last > end) {
                    ends.pop(); // the loop's top refused: the last field read is named
                }
                Err((err.kind(), ends.last().copied().unwrap_or(start)))
            }
        }
    }

    /// Whether `merge` and its three copies (borrowed, distinguished, both) give the same answer
    /// and leave the same fields behind, also when refused.
    pub fn copies_agree(s: &[u8], start: usize, end: usize) -> bool {
        let ctx = DecodeContext::default;
        let strict = || RestrictedDecodeContext::new(Canonicity::Canonical);
        let canonical = |c| assert_eq!(c, Canonicity::Canonical);
        let owned = merged(s, start, end, |m, b| merge(m, b, ctx()));
        owned == merged(s, start, end, |m, b| borrow_merge(m, b, ctx()))
            && owned
                == merged(s, start, end, |m, b| {
                    merge_distinguished(m, b, strict()).map(canonical)
                })
            && owned
                == merged(s, start, end, |m, b| {
                    borrow_merge_distinguished(m, b, strict()).map(canonical)
                })
    }

    /// What `merge` leaves in the message, refused or not: a field's tag, type and bytes (a
    /// varint's eight, lowest first).
    pub fn left(s: &[u8], start: usize, end: usize) -> (Answer<()>, Vec<(u32, u8, Vec<u8>)>) {
        let (res, message, _) = merged(s, start, end, |m, b| merge(m, b, DecodeContext::default()));
        let fields = message.iter().map(|(tag, value)| {
            let bytes = match value {
                OpaqueValue::Varint(value) => value.to_le_bytes().to_vec(),
                OpaqueValue::LengthDelimited(bytes) => bytes.to_vec(),
                OpaqueValue::ThirtyTwoBit(bytes) => bytes.to_vec(),
                OpaqueValue::SixtyFourBit(bytes) => bytes.to_vec(),
            };
            (*tag, words(s, value)[0] as u8, bytes)
        });
        (res, fields.collect())
    }

    /// All values of a tag: wire type, value or payload's start, length. (`OpaqueMessage`'s index
    /// panics where the tag is absent; here that is no value.)
    pub fn index(s: &[u8], tag: u32) -> Answer<Vec<[u64; 3]>> {
        let (res, message, _) = merged(s, 0, s.len(), |m, b| {
            borrow_merge(m, b, DecodeContext::default())
        });
        res?;
        if message.iter().all(|(&other, _)| other != tag) {
            return Ok(Vec::new());
        }
        Ok(message[&tag].iter().map(|value| words(s, value)).collect())
    }

    /// Good records, inserted in the given order and written by `raw_encode` and `raw_prepend`,
    /// measured by `raw_encoded_len`.
    pub fn write(source: &[u8], records: &[Record]) -> Written {
        let mut message = OpaqueMessage::new();
        for record in records {
            message.insert(record[0] as u32, value_of(source, record));
        }
        let mut forward = Vec::new();
        message.raw_encode(&mut forward);
        let mut prepended = ReverseBuffer::new();
        message.raw_prepend(&mut prepended);
        (forward, prepended.into_vec(), message.raw_encoded_len())
    }

    /// The payload that `OpaqueValue::packed` makes of the records' values.
    pub fn packed(source: &[u8], records: &[Record]) -> Vec<u8> {
        match OpaqueValue::packed(records.iter().map(|record| value_of(source, record))) {
            OpaqueValue::LengthDelimited(bytes) => bytes.into_owned(),
            _ => unreachable!(),
        }
    }
}

// ---- One part of a message ----

impl Blob {
    /// `decode_varint`: the value and the place after it.
    pub fn varint(s: &[u8], at: usize) -> Answer<(u64, usize)> {
        let mut buf = &s[at..];
        let value = decode_varint(&mut buf)?;
        Ok((value, place(s, buf)))
    }

    /// `decode_length_delimiter`, likewise.
    pub fn delimiter(s: &[u8], at: usize) -> Answer<(u64, usize)> {
        let mut buf = &s[at..];
        let value = decode_length_delimiter(&mut buf)?;
        Ok((value as u64, place(s, buf)))
    }

    /// `Capped::decode_varint`, likewise.
    pub fn capped_varint(s: &[u8], at: usize, end: usize) -> Answer<(u64, usize)> {
        let mut buf = &s[at..];
        let value = cap(&mut buf, s.len() - end).decode_varint()?;
        Ok((value, place(s, buf)))
    }

    /// `TagReader::decode_key`: tag, wire type and the place after the key.
    pub fn key(s: &[u8], at: usize, end: usize, last_tag: u32) -> Answer<(u32, u8, usize)> {
        let mut buf = &s[at..];
        let capped = cap(&mut buf, s.len() - end);
        let (tag, wire_type) = TagReader { last_tag }.decode_key(capped)?;
        Ok((tag, wire_type as u8, place(s, buf)))
    }

    /// A value through `OpaqueMessage`, whose decoders are the private
    /// `OpaqueValue::borrow_decode_value` and `decode_value` with an insertion: its record's last
    /// three words and the place after it. The owned and the borrowed one must agree.
    pub fn value(s: &[u8], at: usize, end: usize, wire_type: u8) -> Answer<([u64; 3], usize)> {
        let wire_type = WireType::from(wire_type);
        let ctx = DecodeContext::default();
        let mut buf = &s[at..];
        let mut message = OpaqueMessage::new();
        let capped = cap(&mut buf, s.len() - end);
        let res = message.raw_borrow_decode_field(0, wire_type, false, capped, ctx.clone());

        let mut other_buf = &s[at..];
        let mut other = OpaqueMessage::new();
        let capped = cap(&mut other_buf, s.len() - end);
        let owned = other.raw_decode_field(0, wire_type, false, capped, ctx);
        assert!(res == owned && message == other && (res.is_err() || buf == other_buf));

        res?;
        let (_, value) = message.iter().next().unwrap();
        Ok((words(s, value), place(s, buf)))
    }

    /// One turn of `merge`'s loop: a record and the place after it, or the end.
    pub fn step(s: &[u8], at: usize, end: usize, last_tag: u32) -> Answer<Option<(Record, usize)>> {
        let mut buf = &s[at..];
        if !cap(&mut buf, s.len() - end).has_remaining()? {
            return Ok(None);
        }
        let (tag, wire_type, at) = Self::key(s, at, end, last_tag)?;
        let ([wire_type, value, length], next) = Self::value(s, at, end, wire_type)?;
        Ok(Some(([tag.into(), wire_type, value, length], next)))
    }

    /// `skip_field`: the place reached.
    pub fn skip(s: &[u8], at: usize, end: usize, wire_type: u8) -> Answer<usize> {
        let mut buf = &s[at..];
        skip_field(wire_type.into(), cap(&mut buf, s.len() - end))?;
        Ok(place(s, buf))
    }

    /// `encode_varint`, `prepend_varint` and `encoded_len_varint`; `const_varint` must agree.
    pub fn write_varint(value: u64) -> Written {
        let mut forward = Vec::new();
        encode_varint(value, &mut forward);
        assert_eq!(&forward[..], &const_varint(value)[..]);
        let mut prepended = ReverseBuffer::new();
        prepend_varint(value, &mut prepended);
        (forward, prepended.into_vec(), encoded_len_varint(value))
    }

    /// `TagWriter`, `TagRevWriter` and `RuntimeTagMeasurer`; they panic on a tag below the last.
    pub fn write_key(last_tag: u32, tag: u32, wire_type: u8) -> Written {
        let wire_type = wire_type.into();
        let mut forward = Vec::new();
        TagWriter { last_tag }.encode_key(tag, wire_type, &mut forward);
        let mut prepended = ReverseBuffer::new();
        let current_key = Some((tag, wire_type));
        TagRevWriter { current_key }.begin_field(last_tag, WireType::Varint, &mut prepended);
        let len = RuntimeTagMeasurer { last_tag }.key_len(tag);
        (forward, prepended.into_vec(), len)
    }

    pub fn varint_len(value: u64) -> usize {
        encoded_len_varint(value)
    }

    pub fn to_unsigned(value: i64) -> u64 {
        i64_to_unsigned(value)
    }

    pub fn to_signed(value: u64) -> i64 {
        u64_to_signed(value)
    }
}

// ---- Helpers ----

fn cap<'a, 'b>(buf: &'a mut &'b [u8], extra_bytes_remaining: usize) -> Capped<'a, &'b [u8]> {
    Capped {
        buf,
        extra_bytes_remaining,
    }
}

fn place(s: &[u8], buf: &[u8]) -> usize {
    s.len() - buf.len()
}

/// A value's wire type, its number or its payload's start in the slice, its length.
fn words(s: &[u8], value: &OpaqueValue) -> [u64; 3] {
    match value {
        OpaqueValue::Varint(value) => [0, *value, 0],
        OpaqueValue::LengthDelimited(part) => {
            let start = (part.as_ptr() as usize).wrapping_sub(s.as_ptr() as usize);
            [1, start as u64, part.len() as u64]
        }
        OpaqueValue::ThirtyTwoBit(bytes) => [2, u32::from_le_bytes(*bytes).into(), 4],
        OpaqueValue::SixtyFourBit(bytes) => [3, u64::from_le_bytes(*bytes), 8],
    }
}

fn value_of<'a>(source: &'a [u8], record: &Record) -> OpaqueValue<'a> {
    let [_, wire_type, value, length] = *record;
    match wire_type {
        0 => OpaqueValue::Varint(value),
        1 => {
            let part = &source[value as usize..][..length as usize];
            OpaqueValue::LengthDelimited(Cow::Borrowed(part))
        }
        2 => OpaqueValue::ThirtyTwoBit((value as u32).to_le_bytes()),
        3 => OpaqueValue::SixtyFourBit(value.to_le_bytes()),
        _ => panic!("no wire type"),
    }
}

fn records(s: &[u8], message: &OpaqueMessage) -> Vec<Record> {
    let record = |(tag, value): (&u32, &OpaqueValue)| {
        let [wire_type, value, length] = words(s, value);
        [(*tag).into(), wire_type, value, length]
    };
    message.iter().map(record).collect()
}

type Merged<'a> = (Answer<()>, OpaqueMessage<'a>, Option<usize>);

/// One of `merge`'s copies: its answer, what it left in the message, and, accepted, the place.
fn merged<'a>(
    s: &'a [u8],
    start: usize,
    end: usize,
    by: impl FnOnce(&mut OpaqueMessage<'a>, Capped<&'a [u8]>) -> Result<(), DecodeError>,
) -> Merged<'a> {
    let mut buf = &s[start..];
    let mut message = OpaqueMessage::new();
    let res = by(&mut message, cap(&mut buf, s.len() - end));
    let at = res.is_ok().then(|| place(s, buf));
    (res.map_err(|err| err.kind()), message, at)
}

/// An `OpaqueMessage` that also writes down where each of its fields ended.
struct Watched<'a> {
    message: OpaqueMessage<'a>,
    len: usize,
    ends: Vec<usize>,
}

impl<'a> RawMessageBorrowDecoder<'a> for Watched<'a> {
    fn raw_borrow_decode_field(
        &mut self,
        tag: u32,
        wire_type: WireType,
        duplicated: bool,
        mut buf: Capped<&'a [u8]>,
        ctx: DecodeContext,
    ) -> Result<(), DecodeError> {
        self.message
            .raw_borrow_decode_field(tag, wire_type, duplicated, buf.lend(), ctx)?;
        self.ends.push(self.len - buf.remaining());
        Ok(())
    }
}

/// Asked for by the trait above; nothing calls it.
impl RawMessage for Watched<'_> {
    const __ASSERTIONS: () = ();
    fn empty() -> Self {
        unimplemented!()
    }
    fn is_empty(&self) -> bool {
        unimplemented!()
    }
    fn clear(&mut self) {
        unimplemented!()
    }
    fn raw_encode<B: BufMut + ?Sized>(&self, _: &mut B) {
        unimplemented!()
    }
    fn raw_prepend<B: ReverseBuf + ?Sized>(&self, _: &mut B) {
        unimplemented!()
    }
    fn raw_encoded_len(&self) -> usize {
        unimplemented!()
    }
}
