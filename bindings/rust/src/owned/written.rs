//! What is written, in bytes that are found room for.
use crate::*;
use alloc::{vec, vec::Vec};

/// The message of these records, their payloads taken from the source. Refusals as [`encode_message`]'s, without NoRoom.
///
/// ```
/// # use capgauze::{message, Field, Value};
/// let level = Field { tag: 3, value: Value::LengthDelimited { start: 0, length: 2 } };
/// assert_eq!(message(&[level.into()], b"hi"), Ok(vec![0x0D, 0x02, b'h', b'i']));
/// ```
pub fn message(records: &[Record], source: &[u8]) -> Result<Vec<u8>, RefusedWrite> {
    let table: Vec<u64> = records.iter().flat_map(Record::words).collect();
    with_room(|buf| encode_message(source, &table, records.len(), buf))
}

/// What a writer writes to the front of a buffer that has room for it.
pub(crate) fn with_room(
    write: impl Fn(&mut [u8]) -> Result<Written, RefusedWrite>,
) -> Result<Vec<u8>, RefusedWrite> {
    let mut buf = vec![0; 256];
    let written = match write(&mut buf) {
        Err(RefusedWrite { refusal: Refusal::NoRoom, needed, .. }) => {
            buf = vec![0; needed];
            write(&mut buf)?
        }
        answer => answer?,
    };
    buf.truncate(written.length);
    Ok(buf)
}

/// The original with the correction over it. Refusals as [`write_corrected`]'s, without NoRoom.
///
/// ```
/// # use capgauze::corrected;
/// let (original, correction) = ([0x00, 0x01, 0x08, 0x02], [0x04, 0x05]);
/// let result = corrected(&original, &correction)?;
/// assert_eq!(result, [0x00, 0x01, 0x04, 0x05, 0x04, 0x02]);
/// assert_eq!(corrected(&result, &correction)?, result);
/// # Ok::<(), capgauze::Refusal>(())
/// ```
pub fn corrected(original: &[u8], correction: &[u8]) -> Result<Vec<u8>, Refusal> {
    let mut buf = vec![0; LIMIT.min(original.len().saturating_add(correction.len()))];
    let length = write_corrected(original, correction, &mut buf)?;
    buf.truncate(length);
    Ok(buf)
}
