//! A working copy beside a plain list with the same edits; and each edit of any table, with all that it was lent.
use super::*;
use told::{tested, Four};

/// A record of the plain list: a number, or a payload of its own bytes.
#[derive(Clone, Debug)]
struct Item {
    tag: u32,
    kind: u64,
    number: u64,
    bytes: Vec<u8>,
}

/// What the Rust writes of the list.
fn written(list: &[Item]) -> Vec<u8> {
    let mut source = Vec::new();
    let row = |item: &Item| -> Four {
        let start = source.len() as u64;
        source.extend(&item.bytes);
        match item.kind {
            0 => [item.tag.into(), 0, item.number, 0],
            1 => [item.tag.into(), 1, start, item.bytes.len() as u64],
            2 => [item.tag.into(), 2, item.number, 4],
            _ => [item.tag.into(), 3, item.number, 8],
        }
    };
    let rows: Vec<Four> = list.iter().map(row).collect();
    Blob::write(&source, &rows).0
}

fn live_bytes(list: &[Item]) -> usize {
    list.iter().map(|item| item.bytes.len()).sum()
}

fn no(refusal: Refusal, index: usize) -> Result<(), RefusedEdit> {
    Err(RefusedEdit { refusal, index })
}

/// Behind all of equal or lower tag, if there is room for one more.
fn put(list: &mut Vec<Item>, most: usize, item: Item) -> Result<(), RefusedEdit> {
    if list.len() == most {
        return no(Refusal::NoRoom, 0);
    }
    list.insert(list.iter().filter(|other| other.tag <= item.tag).count(), item);
    Ok(())
}

/// What an edit does to a plain list, whose payloads may have so many bytes in all.
fn plain_edit(
    list: &mut Vec<Item>,
    size: usize,
    most: usize,
    edit: Edit,
) -> Result<(), RefusedEdit> {
    let live = live_bytes(list);
    match edit {
        Edit::Remove(index) if index < list.len() => drop(list.remove(index)),
        Edit::Insert(_, bytes) if live + bytes.len() > size => return no(Refusal::NoRoom, 0),
        Edit::Insert(tag, bytes) => {
            return put(list, most, Item { tag, kind: 1, number: 0, bytes: bytes.to_vec() });
        }
        Edit::Replace(index, bytes) if list.get(index).is_some_and(|item| item.kind == 1) => {
            if live - list[index].bytes.len() + bytes.len() > size {
                return no(Refusal::NoRoom, 0);
            }
            list[index].bytes = bytes.to_vec();
        }
        Edit::Remove(index) | Edit::Replace(index, _) => return no(Refusal::BadRecord, index),
    }
    Ok(())
}

impl Against {
    /// A working copy, empty or of a message, through so many edits, refused ones among them. Its message is compared after each.
    pub fn edited(&mut self, edits: usize) {
        let (size, most) = (self.chance.below(60), self.chance.one(&[0, 1, 3, 6, 12]));
        let mut list = Vec::new();
        let (mut copy, mut size, mut most) = if self.chance.below(3) == 0 {
            let s = self.chance.message();
            let (rows, _) = Blob::read(&s, 0, s.len()).unwrap();
            list.extend(rows.iter().map(|&[tag, kind, number, length]| {
                let part = if kind == 1 { &s[number as usize..][..length as usize] } else { &[] };
                Item { tag: tag as u32, kind, number, bytes: part.to_vec() }
            }));
            let (size, most) = (size.max(s.len()), most.max(list.len()));
            (WorkingCopy::of(&s, size, most).unwrap(), size, most)
        } else {
            (WorkingCopy::new(size, most), size, most)
        };
        for _ in 0..edits {
            let before = (copy.parts().0.to_vec(), copy.parts().1.to_vec());
            let answer = self.edit(&mut copy, &mut list, size, most);
            if answer.is_err() {
                same!(self, copy.parts(), (&before.0[..], &before.1[..]), list);
            }
            let spare = size - live_bytes(&list);
            same!(self, (copy.len(), copy.spare()), (list.len(), spare), list);
            same!(self, copy.message(), Ok(written(&list)), list, copy);
            if self.chance.below(64) == 0 {
                let (bytes, records) = (self.chance.below(9), self.chance.below(3));
                copy.grow(bytes, records);
                (size, most) = (size + bytes, most + records);
            }
        }
        for (index, item) in list.iter().enumerate() {
            let payload = (item.kind == 1).then_some(&item.bytes[..]);
            same!(self, copy.payload(index), payload, list, index);
        }
        self.edits += edits as u64;
    }

    /// One edit of both.
    fn edit(
        &mut self,
        copy: &mut WorkingCopy,
        list: &mut Vec<Item>,
        size: usize,
        most: usize,
    ) -> Result<(), RefusedEdit> {
        let inside = self.chance.below(list.len().max(1));
        let index = self.chance.one(&[inside, inside, inside, inside, list.len(), usize::MAX]);
        let spare = size - live_bytes(list);
        let longest = spare + list.get(index).map_or(0, |item| item.bytes.len());
        let length = self.chance.one(&[0, 1, 2, 5, spare / 2, spare, longest, longest + 1]);
        let (bytes, tag) = (self.chance.bytes(length), self.chance.rise() % 9);
        let edit = match self.chance.below(8) {
            0 | 1 => Edit::Remove(index),
            2..=4 => Edit::Replace(index, &bytes),
            5 | 6 => Edit::Insert(tag, &bytes),
            _ => return self.number_put(copy, list, tag, most),
        };
        let ours = match edit {
            Edit::Remove(index) => copy.remove(index),
            Edit::Replace(index, bytes) => copy.replace(index, bytes),
            Edit::Insert(tag, bytes) => copy.insert(tag, bytes),
        };
        same!(self, ours, plain_edit(list, size, most, edit), list, edit);
        ours
    }

    /// A number put into both.
    fn number_put(
        &mut self,
        copy: &mut WorkingCopy,
        list: &mut Vec<Item>,
        tag: u32,
        most: usize,
    ) -> Result<(), RefusedEdit> {
        let (kind, number) = (self.chance.one(&[0, 2, 3]), self.chance.number());
        let number = if kind == 2 { number as u32 as u64 } else { number };
        let ours = match kind {
            0 => copy.insert_varint(tag, number),
            2 => copy.insert_fixed32(tag, number as u32),
            _ => copy.insert_fixed64(tag, number),
        };
        let theirs = put(list, most, Item { tag, kind, number, bytes: vec![] });
        same!(self, ours, theirs, list, tag, kind, number);
        ours
    }

    /// A table over a room, good or spoilt, and each edit of it: the answer, the room and the table.
    pub fn copies(&mut self) {
        let (len, count) = (self.chance.below(24), self.chance.below(7));
        let room = self.chance.bytes(len);
        let mut cuts: Vec<usize> = (0..2 * count).map(|_| self.chance.below(len + 1)).collect();
        cuts.sort();
        let mut parts: Vec<_> = cuts.chunks(2).map(|cut| (cut[0], cut[1] - cut[0])).collect();
        let mut rows = self.chance.records(&room, count);
        for row in &mut rows {
            row[RECORD_WORDS - 1] = NO_KEY;
            if row[1] == 1 {
                let (start, length) = parts.swap_remove(self.chance.below(parts.len()));
                (row[2], row[3]) = (start as u64, length as u64);
            }
        }
        if self.chance.below(3) == 0 && count > 0 {
            let (i, word) = (self.chance.below(count), 2 + self.chance.below(RECORD_WORDS - 2));
            let (number, more) = (self.chance.number(), rows[i][word].wrapping_add(1));
            let place = self.chance.below(len + 2) as u64;
            rows[i][word] = self.chance.one(&[number, 0, more, place, place, NO_KEY]);
        }
        let mut table = rows.concat();
        table.resize(RECORD_WORDS * count + self.chance.one(&[0, 3, 5, 9]), FILL);
        let any = self.chance.bits() as usize;
        let count = self.chance.one(&[count, count, count, count, count, count + 1, any]);
        let index = self.chance.one(&[0, 1, 2, 3, count.saturating_sub(1), count, any]);
        let length = self.chance.one(&[0, 1, 2, 4, len / 2, len]);
        let (bytes, tag) = (self.chance.bytes(length), self.chance.rise());
        self.each_edit(&room, &table, count, index, tag, &bytes);
    }

    fn each_edit(
        &mut self,
        room: &[u8],
        table: &[u64],
        count: usize,
        index: usize,
        tag: u32,
        bytes: &[u8],
    ) {
        for edit in [Edit::Remove(index), Edit::Replace(index, bytes), Edit::Insert(tag, bytes)] {
            let (mut ours, mut theirs) =
                ((room.to_vec(), table.to_vec()), (room.to_vec(), table.to_vec()));
            let answer = match edit {
                Edit::Remove(index) => remove_record(&ours.0, &mut ours.1, count, index),
                Edit::Replace(index, bytes) => {
                    replace_payload(&mut ours.0, &mut ours.1, count, index, bytes)
                }
                Edit::Insert(tag, bytes) => {
                    insert_payload(&mut ours.0, &mut ours.1, count, tag, bytes)
                }
            };
            let expected = expected_edit(&mut theirs.0, &mut theirs.1, count, edit)
                .map_err(|(refusal, index)| RefusedEdit { refusal, index });
            same!(self, (answer, ours), (expected, theirs), room, table, count, edit);
        }
    }
}

#[derive(Clone, Copy, Debug)]
enum Edit<'a> {
    Remove(usize),
    Replace(usize, &'a [u8]),
    Insert(u32, &'a [u8]),
}

/// Rules H1 to H9 of docs/FORMAT.md, by sorting.
fn expected_edit(
    room: &mut [u8],
    table: &mut [u64],
    count: usize,
    edit: Edit,
) -> Result<usize, (Refusal, usize)> {
    let mut rows = tested(room, table, count)?;
    let live = |row: &[u64; RECORD_WORDS]| row[1] == 1 && row[3] > 0;
    let apart = |a: &[u64; RECORD_WORDS], b: &[u64; RECORD_WORDS]| {
        !live(a) || !live(b) || a[2] + a[3] <= b[2] || b[2] + b[3] <= a[2]
    };
    let overlaps = |&i: &usize| rows[..i].iter().any(|row| !apart(row, &rows[i]));
    let bad =
        (0..count).find(overlaps).or(rows.iter().position(|row| row[RECORD_WORDS - 1] != NO_KEY));
    bad.map_or(Ok(()), |index| Err((Refusal::BadRecord, index)))?;
    let (skip, bytes) = match edit {
        Edit::Remove(index) if index < count => {
            rows.remove(index);
            table[..RECORD_WORDS * rows.len()].copy_from_slice(&rows.concat());
            return Ok(count - 1);
        }
        Edit::Replace(index, bytes) if index < count && rows[index][1] == 1 => (index, bytes),
        Edit::Insert(_, bytes) => (count, bytes),
        Edit::Remove(index) | Edit::Replace(index, _) => return Err((Refusal::BadRecord, index)),
    };
    let full = skip == count && count == table.len() / RECORD_WORDS;
    let mut order: Vec<usize> = (0..count).filter(|&i| i != skip && live(&rows[i])).collect();
    let total: u64 = order.iter().map(|&i| rows[i][3]).sum();
    if full || total as usize + bytes.len() > room.len() {
        return Err((Refusal::NoRoom, 0));
    }
    let mut start = order.iter().map(|&i| rows[i][2] + rows[i][3]).max().unwrap_or(0) as usize;
    if start + bytes.len() > room.len() {
        let old = room.to_vec();
        order.sort_by_key(|&i| rows[i][2]);
        start = 0;
        for i in order {
            let (from, length) = (rows[i][2] as usize, rows[i][3] as usize);
            room[start..][..length].copy_from_slice(&old[from..][..length]);
            rows[i][2] = start as u64;
            start += length;
        }
        rows.iter_mut().filter(|row| row[1] == 1 && row[3] == 0).for_each(|row| row[2] = 0);
    }
    room[start..][..bytes.len()].copy_from_slice(bytes);
    match edit {
        Edit::Insert(tag, _) => {
            let at = rows.iter().filter(|row| row[0] <= tag.into()).count();
            rows.insert(at, [tag.into(), 1, start as u64, bytes.len() as u64, NO_KEY]);
        }
        _ => (rows[skip][2], rows[skip][3]) = (start as u64, bytes.len() as u64),
    }
    table[..RECORD_WORDS * rows.len()].copy_from_slice(&rows.concat());
    Ok(rows.len())
}
