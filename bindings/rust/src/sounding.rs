//! Soundings of both editions, read into a table.
use crate::words::*;
use crate::*;

/// The words of a level in a table.
pub const LEVEL_WORDS: usize = 5;

/// The words of a level of the second edition in a table.
pub const GRADED_WORDS: usize = 9;

/// Reads a whole sounding; its levels go into the table, five words each ([`Level::at`] puts names on them). Refusals: as a
/// message; then tag by tag Repeated, WrongWireType, MissingField, OutOfRange; last NoRoom. A refused call leaves the table as it was.
///
/// ```
/// # use capgauze::{read_sounding, Level, Sounding};
/// let sounding = [
///     0x04, 0x01, 0x04, 0x00, 0x05, 0x0E, 0x04, 0x64, 0x04, 0x03, 0x04, 0xFF, 0xFE, 0xFE, 0xFE, 0xFE, 0xFE, 0xFE, 0xFE,
///     0xFE,
/// ];
/// let mut levels = [0; 5];
/// assert_eq!(read_sounding(&sounding, &mut levels), Ok(Sounding { station: 1, launch: 0, levels: 1 }));
/// // All ones means that no sensor measured this.
/// assert_eq!(Level::at(&levels, 0), Some(Level { pressure: 100, temperature: Some(-2), depression: None }));
/// ```
pub fn read_sounding(s: &[u8], levels: &mut [u64]) -> Result<Sounding, Refusal> {
    let answer = unsafe {
        ffi::capgauze_read_sounding(s.as_ptr(), s.len(), levels.as_mut_ptr(), levels.len())
    };
    accepted(answer.number)?;
    Ok(Sounding { station: answer.station, launch: answer.launch, levels: answer.levels as usize })
}

/// Reads a whole sounding of the second edition, whose levels have wind, and takes no field below a grade. Its levels go into the
/// table, nine words each ([`Windy::at`] puts names on them). The answer has the grade that it reaches. Refusals: those of
/// [`read_sounding`], a level's wind behind its other tags, NoRoom among them; last NotCanonical or UnknownField, by the first
/// field below the grade in the order of the bytes, a level's own fields in its place. A refused call leaves the table as it was.
///
/// ```
/// # use capgauze::{read_graded, Grade, Graded, Level, Refusal, Windy};
/// // 7.0 m/s from 90 degrees at 100 Pa
/// let sounding = [0x04, 0x01, 0x04, 0x00, 0x05, 0x06, 0x04, 0x64, 0x0C, 0x46, 0x04, 0x5A];
/// let mut levels = [0; 9];
/// let read = Graded { station: 1, launch: 0, levels: 1, grade: Grade::Canonical };
/// assert_eq!(read_graded(&sounding, &mut levels, Grade::Canonical), Ok(read));
/// let level = Level { pressure: 100, temperature: None, depression: None };
/// assert_eq!(Windy::at(&levels, 0), Some(Windy { level, speed: Some(70), direction: Some(90) }));
///
/// // The vane iced up: the direction is missing, and that is written out as all ones.
/// let iced = [&[0x04, 0x01, 0x04, 0x00, 0x05, 0x0E], &sounding[6..11], &[0xFF], &[0xFE; 8]].concat();
/// assert_eq!(read_graded(&iced, &mut levels, Grade::HasExtensions), Err(Refusal::NotCanonical));
/// let grade = Grade::NotCanonical;
/// assert_eq!(read_graded(&iced, &mut levels, grade), Ok(Graded { grade, ..read }));
/// assert_eq!(Windy::at(&levels, 0), Some(Windy { level, speed: Some(70), direction: None }));
///
/// // An unknown tag behind the levels.
/// let extended = [&sounding[..], &[0x04, 0x01]].concat();
/// assert_eq!(read_graded(&extended, &mut levels, Grade::Canonical), Err(Refusal::UnknownField));
/// let grade = Grade::HasExtensions;
/// assert_eq!(read_graded(&extended, &mut levels, grade), Ok(Graded { grade, ..read }));
/// ```
pub fn read_graded(s: &[u8], levels: &mut [u64], least: Grade) -> Result<Graded, Refusal> {
    let (to, words) = (levels.as_mut_ptr(), levels.len());
    let answer = unsafe { ffi::capgauze_read_graded(s.as_ptr(), s.len(), to, words, least as u64) };
    accepted(answer.number)?;
    let grade =
        [Grade::NotCanonical, Grade::HasExtensions, Grade::Canonical][answer.grade as usize];
    let (station, launch, levels) = (answer.station, answer.launch, answer.levels as usize);
    Ok(Graded { station, launch, levels, grade })
}
