//! Soundings with their levels, from bytes and from lines of hexadecimal.
use crate::*;
use alloc::{vec, vec::Vec};
use core::fmt;

/// A sounding and its levels.
#[derive(Clone, Debug, PartialEq, Eq, Hash)]
pub struct Ascent {
    /// Who sent it.
    pub station: u64,
    /// When the balloon rose, in seconds.
    pub launch: u64,
    /// Its levels, in their order.
    pub levels: Vec<Level>,
}

/// A sounding of the second edition, its levels, and the grade that it reaches.
#[derive(Clone, Debug, PartialEq, Eq, Hash)]
pub struct GradedAscent {
    /// Who sent it.
    pub station: u64,
    /// When the balloon rose, in seconds.
    pub launch: u64,
    /// Its levels, in their order.
    pub levels: Vec<Windy>,
    /// The least grade of all its fields.
    pub grade: Grade,
}

/// The fewest bytes that a level takes in a sounding: two of its own, two of its pressure.
const LEAST_LEVEL: usize = 4;

/// A table for the levels of a sounding of so many bytes.
fn room(s: &[u8], words: usize) -> Vec<u64> {
    vec![0; words * (s.len().min(LIMIT) / LEAST_LEVEL)]
}

/// Reads a whole sounding. Refusals: as [`read_sounding`], without NoRoom.
///
/// ```
/// # use capgauze::{sounding, Level, Refusal};
/// let ascent = sounding(&[0x04, 0x01, 0x04, 0x00, 0x05, 0x05, 0x04, 0x64, 0x04, 0x84, 0x01])?;
/// assert_eq!((ascent.station, ascent.launch), (1, 0));
/// assert_eq!(ascent.levels, [Level { pressure: 100, temperature: Some(130), depression: None }]);
/// assert_eq!(sounding(&[0x04, 0x01]), Err(Refusal::MissingField));
/// # Ok::<(), Refusal>(())
/// ```
pub fn sounding(s: &[u8]) -> Result<Ascent, Refusal> {
    let mut table = room(s, LEVEL_WORDS);
    let Sounding { station, launch, levels } = read_sounding(s, &mut table)?;
    let levels = (0..levels).filter_map(|index| Level::at(&table, index)).collect();
    Ok(Ascent { station, launch, levels })
}

/// Reads a whole sounding of the second edition, and takes no field below a grade. Refusals: as [`read_graded`], without NoRoom.
///
/// ```
/// # use capgauze::{graded, Grade};
/// let ascent = graded(&[0x04, 0x01, 0x04, 0x00, 0x05, 0x06, 0x04, 0x64, 0x0C, 0x46, 0x04, 0x5A], Grade::Canonical)?;
/// assert_eq!((ascent.grade, ascent.levels[0].speed, ascent.levels[0].direction), (Grade::Canonical, Some(70), Some(90)));
/// # Ok::<(), capgauze::Refusal>(())
/// ```
pub fn graded(s: &[u8], least: Grade) -> Result<GradedAscent, Refusal> {
    let mut table = room(s, GRADED_WORDS);
    let Graded { station, launch, levels, grade } = read_graded(s, &mut table, least)?;
    let levels = (0..levels).filter_map(|index| Windy::at(&table, index)).collect();
    Ok(GradedAscent { station, launch, levels, grade })
}

/// Why a line has no sounding.
#[derive(Clone, Copy, Debug, PartialEq, Eq, Hash)]
pub enum RefusedFrame {
    /// Its characters are odd in number, or one is no hexadecimal digit.
    Hex,
    /// Its bytes are refused.
    Bytes(Refusal),
}

impl fmt::Display for RefusedFrame {
    fn fmt(&self, f: &mut fmt::Formatter) -> fmt::Result {
        match self {
            RefusedFrame::Hex => write!(f, "not hexadecimal"),
            RefusedFrame::Bytes(refusal) => refusal.fmt(f),
        }
    }
}

impl core::error::Error for RefusedFrame {}

impl From<Refusal> for RefusedFrame {
    fn from(refusal: Refusal) -> RefusedFrame {
        RefusedFrame::Bytes(refusal)
    }
}

/// The bytes of a line of hexadecimal digits, small or capital.
///
/// ```
/// # use capgauze::{frame_bytes, RefusedFrame};
/// assert_eq!(frame_bytes("04fF"), Ok(vec![0x04, 0xFF]));
/// assert_eq!(frame_bytes("04f"), Err(RefusedFrame::Hex));
/// ```
pub fn frame_bytes(line: impl AsRef<[u8]>) -> Result<Vec<u8>, RefusedFrame> {
    let digit = |c: u8| char::from(c).to_digit(16).map(|digit| digit as u8);
    let byte = |pair: &[u8]| match pair {
        &[high, low] => Some(16 * digit(high)? + digit(low)?),
        _ => None,
    };
    line.as_ref().chunks(2).map(byte).collect::<Option<_>>().ok_or(RefusedFrame::Hex)
}

/// The soundings of lines, each a frame in hexadecimal, without its end of line. There is an item for each line, in its place: a
/// line that is refused is an `Err`, and the lines behind it are read all the same. A line may have any length; one of more than
/// [`LIMIT`] bytes is refused as TooLong.
///
/// ```
/// use capgauze::{soundings, Refusal, RefusedFrame};
///
/// let text = "04AA5004BCE1CEA905050604F0A1030469\n04AA50\n04AA5O\n04AA5004F8E1CEA905\n";
/// let read: Vec<_> = soundings(text.split_terminator('\n')).collect();
/// assert_eq!(read[0].as_ref().unwrap().levels[0].temperature, Some(-53));
/// assert_eq!(read[1], Err(RefusedFrame::Bytes(Refusal::MissingField)));
/// assert_eq!(read[2], Err(RefusedFrame::Hex));
/// assert_eq!(read[3].as_ref().unwrap().levels, []);
/// assert_eq!(read.len(), 4);
/// ```
pub fn soundings<L: AsRef<[u8]>>(
    lines: impl IntoIterator<Item = L>,
) -> impl Iterator<Item = Result<Ascent, RefusedFrame>> {
    lines.into_iter().map(|line| Ok(sounding(&frame_bytes(line)?)?))
}

/// The soundings of lines, of the second edition, of which no field below a grade is taken. Lines as [`soundings`] has them.
///
/// ```
/// use capgauze::{graded_soundings, Grade, Refusal, RefusedFrame};
///
/// // the direction of the second is missing, and written out as all ones
/// let lines = ["04010400050604640C46045A", "04010400050E04640C4604FFFEFEFEFEFEFEFEFE"];
/// let read: Vec<_> = graded_soundings(lines, Grade::HasExtensions).collect();
/// assert_eq!(read[0].as_ref().unwrap().levels[0].direction, Some(90));
/// assert_eq!(read[1], Err(RefusedFrame::Bytes(Refusal::NotCanonical)));
/// let read: Vec<_> = graded_soundings(lines, Grade::NotCanonical).collect();
/// assert_eq!(read[1].as_ref().unwrap().levels[0].direction, None);
/// ```
pub fn graded_soundings<L: AsRef<[u8]>>(
    lines: impl IntoIterator<Item = L>,
    least: Grade,
) -> impl Iterator<Item = Result<GradedAscent, RefusedFrame>> {
    lines.into_iter().map(move |line| Ok(graded(&frame_bytes(line)?, least)?))
}
