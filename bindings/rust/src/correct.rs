//! Corrections over an original: both are messages, and both are read whole, the original first.
use crate::words::*;
use crate::*;

/// Which of two messages supplies a tag: the correction, if it has a field of it, else the original; `None` where neither has.
/// Refusals in order: TooLong, Truncated, InvalidVarint, TagOverflowed of the original; those of the correction; Repeated,
/// where the supplier has more than one field of the tag.
///
/// ```
/// # use capgauze::{corrected_by, Refusal, Supplier};
/// let (original, correction) = ([0x04, 0x07, 0x04, 0x08, 0x00, 0x09], [0x08, 0x05]);
/// assert_eq!(corrected_by(&original, &correction, 1), Ok(Some(Supplier::Original)));
/// assert_eq!(corrected_by(&original, &correction, 2), Ok(Some(Supplier::Correction)));
/// assert_eq!(corrected_by(&original, &correction, 3), Ok(None));
/// assert_eq!(corrected_by(&original, &[], 2), Err(Refusal::Repeated));
/// ```
pub fn corrected_by(
    original: &[u8],
    correction: &[u8],
    tag: u32,
) -> Result<Option<Supplier>, Refusal> {
    let (s, len, over, over_len) = both(original, correction);
    let answer = unsafe { ffi::capgauze_corrected_by(s, len, over, over_len, tag) };
    accepted(answer.number)?;
    let suppliers = [Supplier::Original, Supplier::Correction];
    Ok(suppliers.into_iter().find(|&supplier| supplier as u64 == answer.supplier))
}

/// The value of a tag, as a part of the message that supplies it: its bytes as they stand behind its key, a payload's without
/// its length. Where [`corrected_by`] answers `None` or is refused, it is the empty part at the original's front. An empty
/// payload has no bytes either: only [`corrected_by`] tells it from none.
///
/// ```
/// # use capgauze::corrected_part;
/// let (original, correction) = ([0x04, 0x80, 0x00, 0x05, 0x02, 0xC0, 0xDE], [0x09, 0x01, 0xFF]);
/// assert_eq!(corrected_part(&original, &correction, 1), [0x80, 0x00]);
/// assert_eq!(corrected_part(&original, &correction, 2), [0xFF]);
/// assert_eq!(corrected_part(&original, &correction, 3), []);
/// ```
pub fn corrected_part<'a>(original: &'a [u8], correction: &'a [u8], tag: u32) -> &'a [u8] {
    let (s, len, over, over_len) = both(original, correction);
    let part = unsafe { ffi::capgauze_corrected_part(s, len, over, over_len, tag) };
    let supplier = match corrected_by(original, correction, tag) {
        Ok(Some(Supplier::Correction)) => correction,
        _ => original,
    };
    &supplier[part.start as usize..][..part.length as usize]
}

/// Writes the original with the correction over it as one message to the buffer's front: its length. The correction's fields
/// replace all fields of the original that have their tags; other tags stay. A buffer as long as both together is always
/// enough. Refusals in order: as [`corrected_by`], without Repeated; TooLong for the result; NoRoom.
///
/// ```
/// # use capgauze::{write_corrected, Refusal};
/// let (original, correction) = ([0x00, 0x01, 0x04, 0x02, 0x04, 0x03], [0x04, 0x07, 0x00, 0x08]);
/// let mut buf = [0xAA; 9];
/// assert_eq!(write_corrected(&original, &correction, &mut buf), Ok(8));
/// assert_eq!(buf, [0x00, 0x01, 0x04, 0x07, 0x00, 0x08, 0x04, 0x03, 0xAA]);
/// assert_eq!(write_corrected(&original, &correction, &mut buf[..7]), Err(Refusal::NoRoom));
/// ```
pub fn write_corrected(
    original: &[u8],
    correction: &[u8],
    buf: &mut [u8],
) -> Result<usize, Refusal> {
    let (s, len, over, over_len) = both(original, correction);
    let (to, room) = (buf.as_mut_ptr(), buf.len());
    length(unsafe { ffi::capgauze_write_corrected(s, len, over, over_len, to, room) })
}

fn both(original: &[u8], correction: &[u8]) -> (*const u8, usize, *const u8, usize) {
    (original.as_ptr(), original.len(), correction.as_ptr(), correction.len())
}
