//! Numbers: how long one is as a varint, and signed ones.
use crate::*;

/// How many bytes the varint of a number takes: 1 to 9.
///
/// ```
/// # use capgauze::encoded_len_varint;
/// assert_eq!([127, 128, u64::MAX].map(encoded_len_varint), [1, 2, 9]);
/// ```
pub fn encoded_len_varint(v: u64) -> usize {
    unsafe { ffi::capgauze_encoded_len_varint(v) as usize }
}

/// The signed mapping: v ≥ 0 gives 2v, v < 0 gives −2v − 1.
///
/// ```
/// # use capgauze::i64_to_unsigned;
/// assert_eq!([0, -1, 1, i64::MIN].map(i64_to_unsigned), [0, 1, 2, u64::MAX]);
/// ```
pub fn i64_to_unsigned(v: i64) -> u64 {
    unsafe { ffi::capgauze_i64_to_unsigned(v) }
}

/// The signed mapping back.
///
/// ```
/// # use capgauze::u64_to_signed;
/// assert_eq!([0, 1, 2, u64::MAX].map(u64_to_signed), [0, -1, 1, i64::MIN]);
/// ```
pub fn u64_to_signed(u: u64) -> i64 {
    unsafe { ffi::capgauze_u64_to_signed(u) }
}
