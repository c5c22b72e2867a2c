//! One part of a message: a varint, a key, a value, a field.
use crate::words::*;
use crate::*;

/// The varint at a place. Refusals: TooLong, BadCap, Truncated, InvalidVarint.
///
/// ```
/// # use capgauze::{decode_varint, Decoded, Fault, Refusal};
/// assert_eq!(decode_varint(&[0x80, 0x00], 0), Ok(Decoded { value: 128, next: 2 }));
/// let refused = decode_varint(&[0x80], 0).unwrap_err();
/// assert_eq!((refused.refusal, refused.fault), (Refusal::Truncated, Fault { place: 0, bytes: 1 }));
/// ```
pub fn decode_varint(s: &[u8], at: usize) -> Result<Decoded<u64>, RefusedAt> {
    varint(unsafe { ffi::capgauze_decode_varint(s.as_ptr(), s.len(), at) })
}

/// The varint at a place, under an end. It is read beyond the end too; one that is invalid and whose nine bytes pass the
/// end is Truncated. The place after it may lie past the end.
///
/// ```
/// # use capgauze::{decode_varint_capped, Decoded};
/// assert_eq!(decode_varint_capped(&[0x80, 0x00], 0, 1), Ok(Decoded { value: 128, next: 2 }));
/// ```
pub fn decode_varint_capped(s: &[u8], at: usize, end: usize) -> Result<Decoded<u64>, RefusedAt> {
    varint(unsafe { ffi::capgauze_decode_varint_capped(s.as_ptr(), s.len(), at, end) })
}

/// The key at a place, after the tag `last` (0 at a message's start). Refusals: TooLong, BadCap, Truncated,
/// InvalidVarint, TagOverflowed.
///
/// ```
/// # use capgauze::{decode_key, Decoded, Key, WireType};
/// let key = Key { tag: 5, wire_type: WireType::LengthDelimited };
/// assert_eq!(decode_key(&[0x09], 0, 1, 3), Ok(Decoded { value: key, next: 1 }));
/// ```
pub fn decode_key(
    s: &[u8],
    at: usize,
    end: usize,
    last: u32,
) -> Result<Decoded<Key>, RefusedAfter> {
    let answer = unsafe { ffi::capgauze_decode_key(s.as_ptr(), s.len(), at, end, last) };
    let (tag, place) = (answer.tag as u32, answer.place as usize);
    match accepted(answer.number) {
        Ok(()) => {
            Ok(Decoded { value: Key { tag, wire_type: wire_type(answer.kind) }, next: place })
        }
        Err(refusal) => {
            let fault = fault(answer.failing, answer.bytes);
            Err(RefusedAfter { refusal, reading: Reading::Key, place, last: tag, fault })
        }
    }
}

/// The value of a wire type at a place. Refusals: TooLong, BadCap, Truncated, InvalidVarint.
///
/// ```
/// # use capgauze::{decode_value, Decoded, Value, WireType};
/// let payload = Value::LengthDelimited { start: 1, length: 2 };
/// assert_eq!(
///     decode_value(&[2, 0xC0, 0xDE], 0, 3, WireType::LengthDelimited),
///     Ok(Decoded { value: payload, next: 3 })
/// );
/// ```
pub fn decode_value(
    s: &[u8],
    at: usize,
    end: usize,
    wire_type: WireType,
) -> Result<Decoded<Value>, RefusedAt> {
    let kind = wire_type as u64;
    let answer = unsafe { ffi::capgauze_decode_value(s.as_ptr(), s.len(), at, end, kind) };
    let place = answer.place as usize;
    match accepted(answer.number) {
        Ok(()) => Ok(Decoded { value: value(kind, answer.value, answer.length), next: place }),
        Err(refusal) => {
            let fault = fault(answer.failing, answer.bytes);
            Err(RefusedAt { refusal, reading: Reading::Value, place, fault })
        }
    }
}

/// Passes over the value of a wire type and the fields of the same tag behind it: the place reached, which may lie past
/// the end. Refusals: TooLong, BadCap, Truncated, InvalidVarint.
///
/// ```
/// # use capgauze::{skip_field, WireType};
/// assert_eq!(skip_field(&[0x05, 0x00, 0x06, 0x04, 0x07], 0, 5, WireType::Varint), Ok(3));
/// ```
pub fn skip_field(
    s: &[u8],
    at: usize,
    end: usize,
    wire_type: WireType,
) -> Result<usize, RefusedAt> {
    let kind = wire_type as u64;
    let answer = unsafe { ffi::capgauze_skip_field(s.as_ptr(), s.len(), at, end, kind) };
    let place = answer.place as usize;
    let fault = fault(answer.failing, answer.bytes);
    let refused = |refusal| RefusedAt { refusal, reading: Reading::Skipped, place, fault };
    accepted(answer.number).map(|()| place).map_err(refused)
}

/// One step of a message, from a field's first byte with the tag before it: a field, or `None` at the end. The place
/// after a field may lie past the end; the next step is then Truncated.
///
/// ```
/// # use capgauze::{step_at, Decoded, Field, Value};
/// let field = Field { tag: 2, value: Value::Varint(7) };
/// assert_eq!(step_at(&[0x04, 0x07], 0, 2, 1), Ok(Some(Decoded { value: field, next: 2 })));
/// assert_eq!(step_at(&[0x04, 0x07], 2, 2, 2), Ok(None));
/// ```
pub fn step_at(
    s: &[u8],
    at: usize,
    end: usize,
    last: u32,
) -> Result<Option<Decoded<Field>>, RefusedAfter> {
    let answer = unsafe { ffi::capgauze_step_at(s.as_ptr(), s.len(), at, end, last) };
    let (tag, place) = (answer.tag as u32, answer.place as usize);
    match accepted(answer.number) {
        Ok(()) if answer.found == 0 => Ok(None),
        Ok(()) => {
            let value = value(answer.kind, answer.value, answer.length);
            Ok(Some(Decoded { value: Field { tag, value }, next: place }))
        }
        Err(refusal) => {
            let fault = fault(answer.failing, answer.bytes);
            Err(RefusedAfter { refusal, reading: Reading::Field, place, last: tag, fault })
        }
    }
}

/// The fields of a message one by one, by [`step_at`]; a refusal is the last that comes.
///
/// ```
/// # use capgauze::{fields, Value};
/// let values: Result<Vec<_>, _> = fields(&[0x04, 0x07, 0x00, 0x08]).collect();
/// assert_eq!(values?.last().unwrap().value, Value::Varint(8));
/// assert!(fields(&[0x04]).next().unwrap().is_err());
/// # Ok::<(), capgauze::RefusedAfter>(())
/// ```
pub fn fields(message: &[u8]) -> Fields<'_> {
    Fields { message, place: 0, last: 0, over: false }
}

/// What [`fields`] gives.
#[derive(Clone, Debug)]
pub struct Fields<'a> {
    message: &'a [u8],
    place: usize,
    last: u32,
    over: bool,
}

impl Iterator for Fields<'_> {
    type Item = Result<Field, RefusedAfter>;

    fn next(&mut self) -> Option<Self::Item> {
        if self.over {
            return None;
        }
        let step = step_at(self.message, self.place, self.message.len(), self.last);
        if let Ok(Some(Decoded { value, next })) = step {
            self.place = next;
            self.last = value.tag;
            return Some(Ok(value));
        }
        self.over = true;
        step.err().map(Err)
    }
}
