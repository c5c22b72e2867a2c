//! Packed runs as slices: all values of a run by one call, and a run of all values.
//!
//! While one is made or read, it has a table on the heap, 40 bytes a value.
use super::written::with_room;
use crate::*;
use alloc::{vec, vec::Vec};

/// The numbers of a run of varints. Refusals in order: TooLong; Truncated, InvalidVarint as met.
///
/// ```
/// # use capgauze::{pack_varints, u64_to_signed, unpack_varints};
/// assert_eq!(unpack_varints(&[0x05, 0x80, 0x00]), Ok(vec![5, 128]));
///
/// let heights = [10, 250, 12_400];
/// assert_eq!(unpack_varints(&pack_varints(&heights)?)?, heights);
/// // signed ones by the signed mapping
/// let drift: Vec<i64> = unpack_varints(&[0x01, 0x04])?.into_iter().map(u64_to_signed).collect();
/// assert_eq!(drift, [-1, 2]);
/// # Ok::<(), Box<dyn std::error::Error>>(())
/// ```
pub fn unpack_varints(run: &[u8]) -> Result<Vec<u64>, Refusal> {
    unpacked(run, WireType::Varint, |record| record.value)
}

/// The numbers of a run of four bytes each. Refusals: TooLong, Truncated.
///
/// ```
/// # use capgauze::{pack_fixed32, unpack_fixed32};
/// assert_eq!(unpack_fixed32(&[0x05, 0x00, 0x00, 0x00, 0x00, 0x01, 0x00, 0x00]), Ok(vec![5, 256]));
///
/// let speeds = [3.5f32, -0.25];
/// let run = pack_fixed32(&speeds.map(f32::to_bits))?;
/// assert_eq!(unpack_fixed32(&run)?.into_iter().map(f32::from_bits).collect::<Vec<_>>(), speeds);
/// # Ok::<(), Box<dyn std::error::Error>>(())
/// ```
pub fn unpack_fixed32(run: &[u8]) -> Result<Vec<u32>, Refusal> {
    unpacked(run, WireType::ThirtyTwoBit, |record| record.value as u32)
}

/// The numbers of a run of eight bytes each. Refusals: TooLong, Truncated.
///
/// ```
/// # use capgauze::unpack_fixed64;
/// assert_eq!(unpack_fixed64(&[0x05, 0, 0, 0, 0, 0, 0, 0]), Ok(vec![5]));
/// ```
pub fn unpack_fixed64(run: &[u8]) -> Result<Vec<u64>, Refusal> {
    unpacked(run, WireType::SixtyFourBit, |record| record.value)
}

/// The payloads of a run, as parts of it. Refusals in order: TooLong; Truncated, InvalidVarint as met.
///
/// ```
/// # use capgauze::unpack_payloads;
/// assert_eq!(unpack_payloads(&[0x02, b'h', b'i', 0x00]), Ok(vec![&b"hi"[..], b""]));
/// ```
pub fn unpack_payloads(run: &[u8]) -> Result<Vec<&[u8]>, Refusal> {
    unpacked(run, WireType::LengthDelimited, |record| payload_of(run, record))
}

fn unpacked<T>(
    run: &[u8],
    wire_type: WireType,
    value: impl Fn(Record) -> T,
) -> Result<Vec<T>, Refusal> {
    let mut table = vec![0; RECORD_WORDS * run_count(run, wire_type)?];
    let count = read_run(run, wire_type, &mut table)?;
    Ok((0..count).filter_map(|number| Record::at(&table, number)).map(value).collect())
}

/// The run of these numbers as varints. Refusal: TooLong.
///
/// ```
/// # use capgauze::pack_varints;
/// assert_eq!(pack_varints(&[5, 128]), Ok(vec![0x05, 0x80, 0x00]));
/// ```
pub fn pack_varints(numbers: &[u64]) -> Result<Vec<u8>, RefusedWrite> {
    packed(b"", WireType::Varint, numbers.iter().map(|&number| Value::Varint(number)))
}

/// The run of these numbers, four bytes each. Refusal: TooLong.
///
/// ```
/// # use capgauze::pack_fixed32;
/// assert_eq!(pack_fixed32(&[5, 256]), Ok(vec![0x05, 0x00, 0x00, 0x00, 0x00, 0x01, 0x00, 0x00]));
/// ```
pub fn pack_fixed32(numbers: &[u32]) -> Result<Vec<u8>, RefusedWrite> {
    packed(b"", WireType::ThirtyTwoBit, numbers.iter().map(|&number| Value::ThirtyTwoBit(number)))
}

/// The run of these numbers, eight bytes each. Refusal: TooLong.
///
/// ```
/// # use capgauze::pack_fixed64;
/// assert_eq!(pack_fixed64(&[5]), Ok(vec![0x05, 0, 0, 0, 0, 0, 0, 0]));
/// ```
pub fn pack_fixed64(numbers: &[u64]) -> Result<Vec<u8>, RefusedWrite> {
    packed(b"", WireType::SixtyFourBit, numbers.iter().map(|&number| Value::SixtyFourBit(number)))
}

/// The run of these payloads, which are copied twice. Refusal: TooLong.
///
/// ```
/// # use capgauze::pack_payloads;
/// assert_eq!(pack_payloads(&[b"hi", b""]), Ok(vec![0x02, b'h', b'i', 0x00]));
/// ```
pub fn pack_payloads(payloads: &[&[u8]]) -> Result<Vec<u8>, RefusedWrite> {
    let mut end = 0;
    let values = payloads.iter().map(|payload| {
        let (start, length) = (end, payload.len());
        end += length;
        Value::LengthDelimited { start, length }
    });
    packed(&payloads.concat(), WireType::LengthDelimited, values)
}

fn packed(
    source: &[u8],
    wire_type: WireType,
    values: impl Iterator<Item = Value>,
) -> Result<Vec<u8>, RefusedWrite> {
    let words = |value| Record::from(Field { tag: 0, value }).words();
    let table: Vec<u64> = values.flat_map(words).collect();
    with_room(|buf| write_run(source, &table, table.len() / RECORD_WORDS, wire_type, buf))
}
