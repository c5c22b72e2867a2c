//! The rules of docs/FORMAT.md for what the Rust has none: the refusals 4 to 8, 11 and 12, what refusals carry, what stands in
//! tables and indexes, what a correction replaces, which records are a run's.
use bilrost::{Blob, DecodeErrorKind};
use capgauze::*;

/// A record's words, and those that the Rust knows of.
pub type Row = [u64; RECORD_WORDS];
pub type Four = [u64; RECORD_WORDS - 1];

pub fn four([tag, kind, value, length, _]: Row) -> Four {
    [tag, kind, value, length]
}

pub fn fours(rows: &[Row]) -> Vec<Four> {
    rows.iter().copied().map(four).collect()
}

pub fn keyed([tag, kind, value, length]: Four, key: u64) -> Row {
    [tag, kind, value, length, key]
}

pub fn named(kind: DecodeErrorKind) -> Refusal {
    match kind {
        DecodeErrorKind::Truncated => Refusal::Truncated,
        DecodeErrorKind::InvalidVarint => Refusal::InvalidVarint,
        DecodeErrorKind::TagOverflowed => Refusal::TagOverflowed,
        other => panic!("the Rust answers {other:?}"),
    }
}

/// 4 for the slice, 8, then what the Rust says.
pub fn limited<T>(
    s: &[u8],
    places: &[usize],
    rust: impl FnOnce() -> Result<T, DecodeErrorKind>,
) -> Result<T, Refusal> {
    if s.len() > LIMIT {
        return Err(Refusal::TooLong);
    }
    if places.iter().any(|&place| place > s.len()) {
        return Err(Refusal::BadCap);
    }
    rust().map_err(named)
}

/// The answer to a read, and the records that an accepted one writes.
pub fn expected_read(
    s: &[u8],
    start: usize,
    end: usize,
    room: usize,
) -> (Result<Read, RefusedRead>, Vec<Row>) {
    let refused = |refusal, place, count, fault| {
        (Err(RefusedRead { refusal, place, count, fault }), Vec::new())
    };
    if let Err(refusal) = limited(s, &[start, end], || Ok(())) {
        return refused(refusal, 0, 0, Fault::default());
    }
    match Blob::read(s, start, end) {
        Err((kind, place)) => refused(named(kind), place, 0, message_fault(s, start, end)),
        Ok((records, _)) if records.len() > room => {
            refused(Refusal::NoRoom, 0, records.len(), Fault::default())
        }
        Ok((records, place)) => {
            let (mut at, mut last) = (start, 0);
            let rows = records.iter().map(|&record| {
                let row = keyed(record, at as u64);
                let (tag, kind, behind) = Blob::key(s, at, end, last).unwrap();
                (at, last) = (Blob::value(s, behind, end, kind).unwrap().1, tag);
                row
            });
            (Ok(Read { place, count: records.len() }), rows.collect())
        }
    }
}

// ---- Where a failing read began, and how many bytes of a varint it looked at (rules F1 to F5) ----

/// Of a refused varint.
pub fn looked(s: &[u8], at: usize) -> Fault {
    Fault { place: at, bytes: 9.min(s.len() - at) }
}

/// Of a refused key.
pub fn key_fault(s: &[u8], at: usize, refusal: Refusal) -> Fault {
    match refusal {
        Refusal::TagOverflowed => Fault { place: at, bytes: 0 },
        _ => looked(s, at),
    }
}

/// Of a refused value: that of its varint, or of the varint of its length; else the value's place alone.
pub fn value_fault(s: &[u8], at: usize, kind: u8) -> Fault {
    match kind {
        0 | 1 if Blob::varint(s, at).is_err() => looked(s, at),
        _ => Fault { place: at, bytes: 0 },
    }
}

/// Of a refused field.
pub fn field_fault(s: &[u8], at: usize, end: usize, last: u32) -> Fault {
    match Blob::key(s, at, end, last) {
        Err(kind) => key_fault(s, at, named(kind)),
        Ok((_, kind, behind)) => value_fault(s, behind, kind),
    }
}

/// Of a refused step.
pub fn step_fault(s: &[u8], at: usize, end: usize, last: u32) -> Fault {
    if at > end {
        Fault { place: at, bytes: 0 }
    } else {
        field_fault(s, at, end, last)
    }
}

/// Of refused skipping: the value that failed may be a later one. A value alone is skipped under the end 0.
pub fn skip_fault(s: &[u8], mut at: usize, end: usize, mut kind: u8) -> Fault {
    while let Ok(behind) = Blob::skip(s, at, 0, kind) {
        match s.get(behind) {
            Some(&next @ 0..4) if behind < end => (at, kind) = (behind + 1, next),
            _ => break,
        }
    }
    value_fault(s, at, kind)
}

/// Of a refused message, field by field from its start; the loop's top names the place reached.
fn message_fault(s: &[u8], start: usize, end: usize) -> Fault {
    let (mut at, mut last) = (start, 0);
    while at < end {
        match Blob::step(s, at, end, last) {
            Ok(Some(([tag, ..], next))) => (at, last) = (next, tag as u32),
            _ => return field_fault(s, at, end, last),
        }
    }
    Fault { place: at, bytes: 0 }
}

pub fn good(source: &[u8], [tag, kind, value, length, key]: Row) -> bool {
    tag <= u32::MAX.into()
        && (key == NO_KEY || key < source.len() as u64)
        && match kind {
            0 => length == 0,
            1 => value.checked_add(length).is_some_and(|end| end <= source.len() as u64),
            2 => length == 4 && value <= u32::MAX.into(),
            3 => length == 8,
            _ => false,
        }
}

/// The records to be written as a message, or the refusal and its index.
pub fn tested(source: &[u8], table: &[u64], count: usize) -> Result<Vec<Row>, (Refusal, usize)> {
    tested_by(source, table, count, |i, rows| match i {
        _ if !good(source, rows[i]) => Err(Refusal::BadRecord),
        1.. if rows[i][0] < rows[i - 1][0] => Err(Refusal::OutOfOrder),
        _ => Ok(()),
    })
}

fn tested_by(
    source: &[u8],
    table: &[u64],
    count: usize,
    test: impl Fn(usize, &[Row]) -> Result<(), Refusal>,
) -> Result<Vec<Row>, (Refusal, usize)> {
    let rows: Vec<Row> =
        table.chunks_exact(RECORD_WORDS).map(|row| row.try_into().unwrap()).collect();
    if source.len() > LIMIT {
        return Err((Refusal::TooLong, 0));
    }
    if count > rows.len() {
        return Err((Refusal::BadRecord, rows.len()));
    }
    (0..count).try_for_each(|i| test(i, &rows).map_err(|refusal| (refusal, i)))?;
    Ok(rows[..count].to_vec())
}

pub fn value(kind: u64, value: u64, length: u64) -> Value {
    Record { tag: 0, wire_type: kind, value, length, key: NO_KEY }.field().unwrap().value
}

// ---- Indexes ----

/// An entry's words: tag, place of its first key, number of its fields.
pub type Words = [u64; 3];

/// The index of a message: its tags and their numbers of fields from what `OpaqueMessage` holds of it, the places of their
/// first keys from the Rust's reader, field by field; of a short message also from what the Rust writes of the fields before.
pub fn expected_index(s: &[u8]) -> Result<Vec<Words>, Refusal> {
    let read = || Blob::read(s, 0, s.len()).map_err(|(kind, _)| kind);
    let (records, _) = limited(s, &[], read)?;
    let (mut entries, mut at, mut last) = (Vec::<Words>::new(), 0, 0);
    for (i, record) in records.iter().enumerate() {
        match entries.last_mut() {
            Some(entry) if entry[0] == record[0] => entry[2] += 1,
            _ => {
                assert!(i > 40 || Blob::write(s, &records[..i]).2 == at);
                entries.push([record[0], at as u64, 1]);
            }
        }
        let (stepped, next) = Blob::step(s, at, s.len(), last).unwrap().unwrap();
        assert_eq!(stepped, *record);
        (at, last) = (next, record[0] as u32);
    }
    Ok(entries)
}

/// The entries that are used, if they may be: each place below a bound, each count from 1 up to one.
pub fn sound(index: &[u64], tags: usize, places: u64, counts: u64) -> Result<Vec<Words>, Refusal> {
    let rows: Vec<Words> = index.chunks_exact(3).map(|row| row.try_into().unwrap()).collect();
    let used = rows.get(..tags).ok_or(Refusal::BadIndex)?;
    let good = |&[tag, place, count]: &Words| {
        tag <= u32::MAX.into() && place < places && (1..=counts).contains(&count)
    };
    let rising = used.windows(2).all(|two| two[0][0] < two[1][0]);
    (rising && used.iter().all(good)).then(|| used.to_vec()).ok_or(Refusal::BadIndex)
}

/// What a lookup through any index answers: the key and value readers are the Rust's.
pub fn expected_lookup(
    s: &[u8],
    index: &[u64],
    tags: usize,
    tag: u32,
) -> Result<Option<Value>, Refusal> {
    let entries = sound(index, tags, s.len() as u64, u64::MAX)?;
    limited(s, &[], || Ok(()))?;
    let Some([_, place, count]) = entries.into_iter().find(|entry| entry[0] == tag.into()) else {
        return Ok(None);
    };
    let end = s.len();
    let (first, kind, at) = Blob::key(s, place as usize, end, 0).map_err(named)?;
    let ([kind, number, length], mut at) = Blob::value(s, at, end, kind).map_err(named)?;
    for _ in 1..count {
        if at == end {
            return Err(Refusal::BadIndex);
        }
        let (next, kind, behind) = Blob::key(s, at, end, first).map_err(named)?;
        if next != first {
            return Err(Refusal::BadIndex);
        }
        at = Blob::value(s, behind, end, kind).map_err(named)?.1;
    }
    if count > 1 {
        Err(Refusal::Repeated)
    } else {
        Ok(Some(value(kind, number, length)))
    }
}

/// A line of an edition: its number, and its digits of a place and of a count.
pub type Edition = (&'static str, usize);
pub const OLD: Edition = ("01", 4);
pub const NEW: Edition = ("02", 6);

pub fn line_of((name, width): Edition, entries: &[Words]) -> Vec<u8> {
    let digits = |[tag, place, count]: &Words| format!("{tag:08X}{place:0width$X}{count:0width$X}");
    [name.to_string()].into_iter().chain(entries.iter().map(digits)).collect::<String>().into()
}

/// Places and counts that have a line of an edition lie below this.
pub fn bound((_, width): Edition) -> u64 {
    1 << (4 * width)
}

/// The entries of a line beside a message of a length: those that are written as this very line, if there are such.
pub fn expected_entries(line: &[u8], message_len: usize) -> Result<Vec<Words>, Refusal> {
    let edition = match line.get(..2) {
        Some(b"01") if message_len <= 65_535 => OLD,
        Some(b"02") => NEW,
        _ => return Err(Refusal::BadIndex),
    };
    let number = |digits: &[u8]| {
        std::str::from_utf8(digits).ok().and_then(|text| u64::from_str_radix(text, 16).ok())
    };
    let behind = 8 + edition.1;
    let entry =
        |row: &[u8]| Some([number(&row[..8])?, number(&row[8..behind])?, number(&row[behind..])?]);
    let rows = line[2..].chunks_exact(behind + edition.1);
    let entries: Vec<Words> = rows.map(entry).collect::<Option<_>>().ok_or(Refusal::BadIndex)?;
    let entries = sound(&entries.concat(), entries.len(), bound(edition), u64::MAX)?;
    (line_of(edition, &entries) == line).then_some(entries).ok_or(Refusal::BadIndex)
}

// ---- Corrections ----

/// Where a tag's value lies: tag, start and length.
pub type Place = (u32, usize, usize);

/// A message's records, and where each value lies, a payload without its length.
pub fn expected_places(s: &[u8]) -> Result<(Vec<Four>, Vec<Place>), Refusal> {
    let (records, _) = limited(s, &[], || Blob::read(s, 0, s.len()).map_err(|(kind, _)| kind))?;
    let (mut places, mut at, mut last) = (Vec::new(), 0, 0);
    for _ in &records {
        let (tag, kind, behind) = Blob::key(s, at, s.len(), last).unwrap();
        let ([kind, start, length], next) = Blob::value(s, behind, s.len(), kind).unwrap();
        places.push(match kind {
            1 => (tag, start as usize, length as usize),
            _ => (tag, behind, next - behind),
        });
        (at, last) = (next, tag);
    }
    Ok((records, places))
}

/// Who supplies a tag, and where the value lies there.
pub fn expected_supplier(
    original: &[Place],
    correction: &[Place],
    tag: u32,
) -> Result<Option<(Supplier, Place)>, Refusal> {
    let of_tag = |places: &[Place]| -> Vec<Place> {
        places.iter().copied().filter(|place| place.0 == tag).collect()
    };
    let (supplier, places) = match of_tag(correction) {
        none if none.is_empty() => (Supplier::Original, of_tag(original)),
        some => (Supplier::Correction, some),
    };
    match places[..] {
        [] => Ok(None),
        [place] => Ok(Some((supplier, place))),
        _ => Err(Refusal::Repeated),
    }
}

/// The replacement by hand: what `OpaqueMessage` writes of the original's fields whose tags the correction has not, and of the
/// correction's. Payloads are taken from both messages, one behind the other.
pub fn expected_result(
    original: (&[u8], Vec<Four>),
    correction: (&[u8], Vec<Four>),
) -> Result<Vec<u8>, Refusal> {
    let replaced: std::collections::HashSet<u64> = correction.1.iter().map(|row| row[0]).collect();
    let mut records = original.1;
    records.retain(|row| !replaced.contains(&row[0]));
    records.extend(correction.1.into_iter().map(|row| match row {
        [tag, 1, start, length] => [tag, 1, start + original.0.len() as u64, length],
        _ => row,
    }));
    let (forward, prepended, len) = Blob::write(&[original.0, correction.0].concat(), &records);
    assert!(forward == prepended && forward.len() == len);
    (len <= LIMIT).then_some(forward).ok_or(Refusal::TooLong)
}

// ---- Packed runs ----

/// The records of a run, by the Rust's reader of a value; what it packs of them is the run again.
pub fn expected_run(s: &[u8], kind: u8) -> Result<Vec<Row>, Refusal> {
    let records = limited(s, &[], || {
        let (mut records, mut at) = (Vec::new(), 0);
        while at < s.len() {
            let ([kind, value, length], next) = Blob::value(s, at, s.len(), kind)?;
            records.push([0, kind, value, length, NO_KEY]);
            at = next;
        }
        Ok(records)
    })?;
    assert!(Blob::packed(s, &fours(&records)) == s);
    Ok(records)
}

/// The records to be written as a run, or the refusal and its index.
pub fn tested_run(
    source: &[u8],
    table: &[u64],
    count: usize,
    kind: u8,
) -> Result<Vec<Row>, (Refusal, usize)> {
    tested_by(source, table, count, |i, rows| match rows[i] {
        row @ [0, of, ..] if of == kind.into() && good(source, row) => Ok(()),
        _ => Err(Refusal::BadRecord),
    })
}
