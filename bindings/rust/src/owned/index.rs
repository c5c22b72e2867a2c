//! An index that owns its words.
use crate::*;
use alloc::{string::String, vec, vec::Vec};

/// The index of a message, made once and kept beside it. It has as many words as it needs, and it was made from a message
/// or read from a line, so that it always has a line.
///
/// ```
/// use capgauze::{Index, Value};
///
/// let message = [0x04, 0x07, 0x00, 0x08, 0x08, 0x09];
/// let index = Index::of(&message)?;
/// assert_eq!(index.pick(&message, 3), Ok(Some(Value::Varint(9))));
///
/// let line = index.to_line();
/// assert_eq!(line, "020000000100000000000200000003000004000001");
/// let read = Index::from_line(&line, message.len())?;
/// assert!(read.fits(&message));
/// assert_eq!(read, index);
/// # Ok::<(), capgauze::Refusal>(())
/// ```
#[derive(Clone, Debug, PartialEq, Eq, Hash)]
pub struct Index {
    words: Vec<u64>,
}

impl Index {
    /// The index of a message. Refusals: as [`make_index`], without NoRoom. While it is made, it has room on the heap for the
    /// most tags that a message of this length can have: 12 bytes for each byte of it.
    pub fn of(message: &[u8]) -> Result<Index, Refusal> {
        let most = message.len().min(LIMIT) / 2; // a field takes two bytes
        Index::filled(most, |words| make_index(message, words))
    }

    /// The index of a line, without its end, beside a message of a length ([`read_line`]). A line of edition 01 comes back from
    /// [`to_line`](Index::to_line) as one of edition 02. Refusal: BadIndex.
    ///
    /// ```
    /// # use capgauze::{Index, Refusal};
    /// let index = Index::from_line("010000000A00040001", 6)?;
    /// assert_eq!(index.to_line(), "020000000A000004000001");
    /// assert_eq!(Index::from_line("010000000A00040001", 65_536), Err(Refusal::BadIndex));
    /// # Ok::<(), Refusal>(())
    /// ```
    pub fn from_line(line: &str, message_len: usize) -> Result<Index, Refusal> {
        let most = line.len() / OLD_LINE_DIGITS; // of both editions
        Index::filled(most, |words| read_line(line.as_bytes(), message_len, words))
    }

    fn filled(
        most: usize,
        fill: impl Fn(&mut [u64]) -> Result<usize, Refusal>,
    ) -> Result<Index, Refusal> {
        let mut words = vec![0; INDEX_WORDS * most];
        let tags = fill(&mut words)?;
        words.truncate(INDEX_WORDS * tags);
        words.shrink_to_fit();
        Ok(Index { words })
    }

    /// Its line, of edition 02, without an end of line.
    pub fn to_line(&self) -> String {
        let mut line = vec![0; 2 + LINE_DIGITS * self.tags()];
        write_line(&self.words, self.tags(), &mut line).expect("an index of a message or a line");
        line.into_iter().map(char::from).collect()
    }

    /// Whether it is the index of this message ([`index_fits`]).
    pub fn fits(&self, message: &[u8]) -> bool {
        index_fits(message, &self.words, self.tags())
    }

    /// The only value of a tag, or `None` ([`pick_indexed`]).
    pub fn pick(&self, message: &[u8], tag: u32) -> Result<Option<Value>, Refusal> {
        pick_indexed(message, &self.words, self.tags(), tag)
    }

    /// How many tags it has.
    pub fn tags(&self) -> usize {
        self.words.len() / INDEX_WORDS
    }

    /// Its entries, by rising tags.
    ///
    /// ```
    /// # use capgauze::{Entry, Index};
    /// let index = Index::of(&[0x04, 0x07, 0x00, 0x08])?;
    /// assert!(index.entries().eq([Entry { tag: 1, place: 0, count: 2 }]));
    /// # Ok::<(), capgauze::Refusal>(())
    /// ```
    pub fn entries(&self) -> impl Iterator<Item = Entry> + '_ {
        (0..self.tags()).filter_map(|number| Entry::at(&self.words, number))
    }

    /// Its words, three a tag, as the functions of this crate take them.
    pub fn words(&self) -> &[u64] {
        &self.words
    }
}

/// The characters of an entry in a line of edition 02, and of edition 01.
const LINE_DIGITS: usize = 20;
const OLD_LINE_DIGITS: usize = 16;
