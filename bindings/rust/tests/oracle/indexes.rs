//! Indexes: made, compared, looked up through, written and read; of the message, damaged, and of another one.
use super::*;
use told::{
    bound, expected_entries, expected_index, expected_lookup, line_of, sound, Words, NEW, OLD,
};

impl Against {
    /// All of it for one message.
    pub fn index(&mut self, s: &[u8]) {
        let made = expected_index(s);
        let tags = made.as_ref().map_or(0, Vec::len);
        let words = 3 * tags + self.chance.one(&[0, 0, 1, 2, 3, 7]);
        self.made(s, &made, words);
        let less = words.saturating_sub(1 + self.chance.below(4));
        self.made(s, &made, less);

        let mut index = made.as_ref().map_or_else(|_| Vec::new(), |entries| entries.concat());
        index.resize(words, FILL);
        let fits = index_fits(s, &index, tags);
        same!(self, fits, made.is_ok(), s, index, tags);
        if let Ok(entries) = &made {
            self.looked_up_as_picked(s, &index, entries);
            same!(self, Index::of(s).map(|own| own.words().to_vec()), Ok(entries.concat()), s);
        }
        for _ in 0..6 {
            self.damaged(s, &made, index.clone(), tags);
        }
        self.line(&index, tags);
        let mut edition = self.chance.one(&[NEW, NEW, OLD]);
        let made = made.unwrap_or_default();
        if sound(&made.concat(), made.len(), bound(OLD), bound(OLD) - 1).is_err() {
            edition = NEW;
        }
        self.read(line_of(edition, &made), s.len());
    }

    fn made(&mut self, s: &[u8], made: &Result<Vec<Words>, Refusal>, words: usize) {
        let mut index = vec![FILL; words];
        let mut expected = index.clone();
        let answer = made.clone().and_then(|entries| {
            let room = expected.get_mut(..3 * entries.len()).ok_or(Refusal::NoRoom)?;
            room.copy_from_slice(&entries.concat());
            Ok(entries.len())
        });
        same!(self, (make_index(s, &mut index), index), (answer, expected), s, words);
    }

    /// Each tag of a message, its neighbours and some by chance: through the index as without it.
    fn looked_up_as_picked(&mut self, s: &[u8], index: &[u64], entries: &[Words]) {
        let first = self.chance.below(entries.len().max(1));
        let asked = entries.iter().skip(first).chain(entries).take(entries.len().min(12));
        let near = asked.flat_map(|entry| [entry[0] as u32, (entry[0] as u32).wrapping_add(1)]);
        for tag in near.chain([0, self.chance.rise(), u32::MAX]) {
            let ours = pick_indexed(s, index, entries.len(), tag);
            same!(self, ours, pick(s, tag), s, index, tag);
            same!(self, ours, expected_lookup(s, index, entries.len(), tag), s, index, tag);
        }
    }

    /// An index with a fault, or the right one for a message with a fault.
    fn damaged(
        &mut self,
        of: &[u8],
        made: &Result<Vec<Words>, Refusal>,
        mut index: Vec<u64>,
        mut tags: usize,
    ) {
        let mut s = of.to_vec();
        let any = self.chance.number();
        match self.chance.below(8) {
            0 => tags = self.chance.one(&[tags + 1, tags.wrapping_sub(1), any as usize, 1 << 62]),
            1 => drop(index.splice(0..3.min(index.len()), [])),
            2 => drop(index.splice(0..0, [any % 4, any % 3, 1])),
            3 => self.chance.damage(&mut s),
            _ if index.is_empty() => index = vec![any % 3, any % 5, any % 4],
            _ => {
                let at = self.chance.below(index.len());
                let word = index[at];
                let near = [word + 1, word.wrapping_sub(1), 0, 1, s.len() as u64, any];
                let edge = [1 << 16, (1 << 24) - 1, 1 << 24, (1 << 32) - 1, 1 << 32, u64::MAX];
                index[at] = self.chance.one(&[near, edge].concat());
            }
        }
        if self.chance.below(4) == 0 {
            tags = index.len() / 3;
        }
        let made = if s == of { made.clone() } else { expected_index(&s) };
        let fits = made.is_ok_and(|entries| {
            entries.len() == tags && index.get(..3 * tags) == Some(&entries.concat())
        });
        same!(self, index_fits(&s, &index, tags), fits, s, index, tags);
        let asked = index.chunks_exact(3).map(|entry| entry[0] as u32).take(12);
        for tag in asked.chain([self.chance.rise()]).collect::<Vec<_>>() {
            let theirs = expected_lookup(&s, &index, tags, tag);
            same!(self, pick_indexed(&s, &index, tags, tag), theirs, s, index, tags, tag);
        }
        self.line(&index, tags);
    }

    /// A length of the message that a line stands beside: its own, at an edge of edition 01, or any.
    fn beside(&mut self, len: usize) -> usize {
        let any = self.chance.number() as usize;
        self.chance.one(&[len, len, len, 65_535, 65_536, LIMIT, 0, any])
    }

    /// An index as a line, and back.
    fn line(&mut self, index: &[u64], tags: usize) {
        let line =
            sound(index, tags, bound(NEW), bound(NEW) - 1).map(|entries| line_of(NEW, &entries));
        let need = line.as_ref().map_or(22, Vec::len);
        let mut buf = vec![0xA5; self.chance.one(&[need, need, need + 5, need - 1, 0, 1])];
        let mut expected = buf.clone();
        let answer = line.and_then(|line| {
            expected.get_mut(..need).ok_or(Refusal::NoRoom)?.copy_from_slice(&line);
            Ok(need)
        });
        let ours = write_line(index, tags, &mut buf);
        same!(self, (ours, &buf), (answer, &expected), index, tags);
        if let Ok(length) = ours {
            let mut words = vec![FILL; 3 * tags];
            let message_len = self.beside(LIMIT);
            let back = (read_line(&buf[..length], message_len, &mut words), &words[..]);
            same!(self, back, (Ok(tags), &index[..3 * tags]), index, tags, message_len);
        }
    }

    /// A line, good and damaged, as an index, and back as edition 02.
    fn read(&mut self, mut line: Vec<u8>, len: usize) {
        for _ in 0..4 {
            let message_len = self.beside(len);
            let entries = expected_entries(&line, message_len);
            let back =
                entries.as_ref().map_or_else(|_| Vec::new(), |entries| line_of(NEW, entries));
            let need = 3 * entries.as_ref().map_or(1, Vec::len);
            let words = self.chance.one(&[need, need + 2, need.saturating_sub(1), 0]);
            let mut index = vec![FILL; words];
            let mut expected = index.clone();
            let answer = entries.and_then(|entries| {
                let room = expected.get_mut(..need).ok_or(Refusal::NoRoom)?;
                room.copy_from_slice(&entries.concat());
                Ok(entries.len())
            });
            let ours = read_line(&line, message_len, &mut index);
            same!(self, (ours, &index), (answer, &expected), line, message_len);
            if let Ok(tags) = ours {
                let mut buf = vec![0xA5; back.len()];
                let written = (write_line(&index, tags, &mut buf), &buf);
                same!(self, written, (Ok(back.len()), &back), index);
            }
            match self.chance.below(8) {
                0 => line.extend(*b"FFFFFFFF00000001"),
                1 => line.extend(*b"FFFFFFFF000000000001"),
                2 => self.chance.damage(&mut line),
                3 => line.splice(..line.len().min(2), *b"01").for_each(drop),
                4 => line.splice(..line.len().min(2), *b"02").for_each(drop),
                _ => {
                    let at = self.chance.below(line.len().max(1));
                    let letter = self.chance.one(b"0123456789ABCDEFaf/:@G+ ");
                    line.get_mut(at).into_iter().for_each(|c| *c = letter);
                }
            }
        }
    }

    /// A lookup through an index of one entry, whatever it says.
    pub fn one_entry(&mut self, s: &[u8], entry: Words) {
        for tag in [0, 1] {
            let theirs = expected_lookup(s, &entry, 1, tag);
            same!(self, pick_indexed(s, &entry, 1, tag), theirs, s, entry, tag);
        }
        let fits = expected_index(s).is_ok_and(|entries| entries == [entry]);
        same!(self, index_fits(s, &entry, 1), fits, s, entry);
    }
}
