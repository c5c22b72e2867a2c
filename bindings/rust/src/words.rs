//! The words that the library answers, as what they stand for.
use crate::*;

/// `Ok` of an accepted answer, or its refusal.
pub(crate) fn accepted(number: u64) -> Result<(), Refusal> {
    match number {
        0 => Ok(()),
        _ => Err(Refusal::try_from(number).unwrap_or(Refusal::Unknown)),
    }
}

pub(crate) fn length(answer: ffi::Number) -> Result<usize, Refusal> {
    accepted(answer.number).map(|()| answer.value as usize)
}

pub(crate) fn wire_type(number: u64) -> WireType {
    use WireType::*;
    [Varint, LengthDelimited, ThirtyTwoBit, SixtyFourBit][number as usize]
}

pub(crate) fn value(kind: u64, value: u64, length: u64) -> Value {
    match wire_type(kind) {
        WireType::Varint => Value::Varint(value),
        WireType::LengthDelimited => {
            Value::LengthDelimited { start: value as usize, length: length as usize }
        }
        WireType::ThirtyTwoBit => Value::ThirtyTwoBit(value as u32),
        WireType::SixtyFourBit => Value::SixtyFourBit(value),
    }
}

pub(crate) fn varint(answer: ffi::Varint) -> Result<Decoded<u64>, RefusedAt> {
    let place = answer.place as usize;
    match accepted(answer.number) {
        Ok(()) => Ok(Decoded { value: answer.value, next: place }),
        Err(refusal) => {
            let fault = varint_fault(refusal, place, answer.bytes);
            Err(RefusedAt { refusal, reading: Reading::Varint, place, fault })
        }
    }
}

pub(crate) fn fault(failing: u64, bytes: u64) -> Fault {
    Fault { place: failing as usize, bytes: bytes as usize }
}

/// The read that failed in a varint is the varint's; the other refusals are not met in the bytes.
pub(crate) fn varint_fault(refusal: Refusal, place: usize, bytes: u64) -> Fault {
    match refusal {
        Refusal::Truncated | Refusal::InvalidVarint => Fault { place, bytes: bytes as usize },
        _ => Fault::default(),
    }
}

pub(crate) fn picked(answer: ffi::Picked) -> Result<Option<Value>, Refusal> {
    accepted(answer.number)?;
    Ok((answer.found != 0).then(|| value(answer.kind, answer.value, answer.length)))
}

pub(crate) fn read(answer: ffi::Read) -> Result<Read, RefusedRead> {
    let (place, count) = (answer.place as usize, answer.count as usize);
    match accepted(answer.number) {
        Ok(()) => Ok(Read { place, count }),
        Err(refusal) => {
            let fault = fault(answer.failing, answer.bytes);
            Err(RefusedRead { refusal, place, count, fault })
        }
    }
}

/// One of the two writers, which are called alike.
pub(crate) fn write_by(
    writer: ffi::Writer,
    source: &[u8],
    table: &[u64],
    count: usize,
    buf: &mut [u8],
) -> Result<Written, RefusedWrite> {
    let (s, len, from, words) = (source.as_ptr(), source.len(), table.as_ptr(), table.len());
    written(unsafe { writer(s, len, from, words, count, buf.as_mut_ptr(), buf.len()) })
}

pub(crate) fn written(answer: ffi::Written) -> Result<Written, RefusedWrite> {
    let (start, length) = (answer.start as usize, answer.length as usize);
    match accepted(answer.number) {
        Ok(()) => Ok(Written { start, length }),
        Err(refusal) => Err(RefusedWrite { refusal, index: start, needed: length }),
    }
}

pub(crate) fn edited(answer: ffi::Number) -> Result<usize, RefusedEdit> {
    let index = answer.value as usize;
    accepted(answer.number).map(|()| index).map_err(|refusal| RefusedEdit { refusal, index })
}

#[cfg(test)]
mod tests {
    use super::*;

    /// A number that has no name here is never taken for an accepted one.
    #[test]
    fn every_number_but_0_is_refused() {
        assert_eq!(accepted(0), Ok(()));
        assert_eq!(accepted(15), Err(Refusal::UnknownField));
        assert_eq!([16, u64::MAX].map(accepted), [Err(Refusal::Unknown); 2]);
    }
}
