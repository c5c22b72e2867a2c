//! Sizes at the edge, without the oracle: empty slices, tables of every small size, places past the end, counts above
//! the room, the limit; and that no refused call changes what it was lent.
use capgauze::*;

const HUGE: [usize; 4] = [100, 1 << 32, usize::MAX / 4 + 1, usize::MAX];
const TYPES: [WireType; 4] =
    [WireType::Varint, WireType::LengthDelimited, WireType::ThirtyTwoBit, WireType::SixtyFourBit];

/// The fault of a refusal that is not met in the bytes, or that is met at place 0 by looking at none.
const NOWHERE: Fault = Fault { place: 0, bytes: 0 };

fn filled<T: Copy>(fill: T, len: usize) -> Vec<T> {
    vec![fill; len]
}

#[test]
fn empty_slices() {
    let truncated = Refusal::Truncated;
    assert_eq!(read_message(&[], 0, 0, &mut []), Ok(Read { place: 0, count: 0 }));
    let (place, fault) = (0, NOWHERE);
    let refused = |reading| RefusedAt { refusal: truncated, reading, place, fault };
    assert_eq!(decode_varint(&[], 0), Err(refused(Reading::Varint)));
    assert_eq!(decode_varint_capped(&[], 0, 0), Err(refused(Reading::Varint)));
    let after = RefusedAfter { refusal: truncated, reading: Reading::Key, place, last: 9, fault };
    assert_eq!(decode_key(&[], 0, 0, 9), Err(after));
    assert_eq!(step_at(&[], 0, 0, 9), Ok(None));
    for wire_type in TYPES {
        assert_eq!(decode_value(&[], 0, 0, wire_type), Err(refused(Reading::Value)));
        assert_eq!(skip_field(&[], 0, 0, wire_type), Err(refused(Reading::Skipped)));
        assert_eq!(encode_key(0, 0, wire_type, &mut []), Err(Refusal::NoRoom));
        assert_eq!(run_count(&[], wire_type), Ok(0));
        assert_eq!(run_value(&[], wire_type, 0), Ok(None));
        assert_eq!(read_run(&[], wire_type, &mut []), Ok(0));
        let none = Written { start: 0, length: 0 };
        assert_eq!(write_run(&[], &[], 0, wire_type, &mut []), Ok(none));
        assert_eq!(prepend_key(1, 0, wire_type, &mut []), Err(Refusal::OutOfOrder));
    }
    assert_eq!(pick(&[], 0), Ok(None));
    assert_eq!(pick_at(&[], 0, 0), Ok((0, None)));
    assert_eq!(pick_early(&[], 0), Ok((0, None)));
    assert_eq!(make_index(&[], &mut []), Ok(0));
    assert!(index_fits(&[], &[], 0));
    assert_eq!(pick_indexed(&[], &[], 0, 0), Ok(None));
    assert_eq!(write_line(&[], 0, &mut []), Err(Refusal::NoRoom));
    assert_eq!(read_line(&[], 0, &mut []), Err(Refusal::BadIndex));
    assert_eq!(corrected_by(&[], &[], 0), Ok(None));
    assert_eq!(corrected_part(&[], &[], 0), []);
    assert_eq!(write_corrected(&[], &[], &mut []), Ok(0));
    assert_eq!(corrected(&[], &[]), Ok(vec![]));
    assert_eq!(fields(&[]).next(), None);
    assert_eq!(encode_varint(0, &mut []), Err(Refusal::NoRoom));
    assert_eq!(prepend_varint(0, &mut []), Err(Refusal::NoRoom));
    assert_eq!(encode_message(&[], &[], 0, &mut []), Ok(Written { start: 0, length: 0 }));
    assert_eq!(prepend_message(&[], &[], 0, &mut [1, 2]), Ok(Written { start: 2, length: 0 }));
    assert_eq!(message(&[], &[]), Ok(vec![]));
    let full = RefusedInsert { refusal: Refusal::NoRoom, index: 0 };
    assert_eq!(insert(&[], &mut [], 0, NewRecord::default()), Err(full));
    let empty = Record { wire_type: 1, ..Record::default() };
    assert_eq!(payload_of(&[], empty), []);
    assert_eq!(read_payload(&[], empty, &mut []), Ok(Read { place: 0, count: 0 }));
}

#[test]
fn tables_of_every_small_size() {
    for words in 0..=5 * RECORD_WORDS - 3 {
        for fields in 0..=3 {
            let mut table = filled(77, words);
            let answer = read_message(&MESSAGE, 0, 2 * fields, &mut table);
            if fields <= words / RECORD_WORDS {
                assert_eq!(answer, Ok(Read { place: 2 * fields, count: fields }));
                let written = RECORD_WORDS * fields;
                assert_eq!(table[..written], RECORDS[..written]);
                assert_eq!(table[written..], filled(77, words - written));
            } else {
                let (place, fault) = (0, NOWHERE);
                let refused = RefusedRead { refusal: Refusal::NoRoom, place, count: fields, fault };
                assert_eq!(answer, Err(refused));
                assert_eq!(table, filled(77, words));
            }
        }
    }
}

type Writer = fn(&[u8], &[u64], usize, &mut [u8]) -> Result<Written, RefusedWrite>;

const RECORDS: [u64; 15] = [1, 0, 7, 0, 0, 1, 0, 8, 0, 2, 2, 0, 9, 0, 4];
const MESSAGE: [u8; 6] = [0x04, 0x07, 0x00, 0x08, 0x04, 0x09];

/// The first records of a table, of which each takes two bytes, written into a buffer of some length.
fn written_alike(write: Writer, back: bool, table: &[u64], count: usize, buf_len: usize) {
    let room = table.len() / RECORD_WORDS;
    let mut buf = filled(0xA5, buf_len);
    let answer = write(&MESSAGE, table, count, &mut buf);
    let mut expected = filled(0xA5, buf_len);
    if count > room || 2 * count > buf_len {
        let bad = count > room;
        let refusal = if bad { Refusal::BadRecord } else { Refusal::NoRoom };
        let (index, needed) = if bad { (room, 0) } else { (0, 2 * count) };
        assert_eq!(answer, Err(RefusedWrite { refusal, index, needed }));
    } else {
        let (start, length) = (if back { buf_len - 2 * count } else { 0 }, 2 * count);
        assert_eq!(answer, Ok(Written { start, length }));
        expected[start..][..length].copy_from_slice(&MESSAGE[..length]);
    }
    assert_eq!(buf, expected);
}

#[test]
fn counts_and_rooms() {
    for words in 0..=RECORDS.len() {
        let room = words / RECORD_WORDS;
        for count in (0..=5).chain(HUGE) {
            for buf_len in 0..=7 {
                written_alike(encode_message, false, &RECORDS[..words], count, buf_len);
                written_alike(prepend_message, true, &RECORDS[..words], count, buf_len);
            }
            let mut table = RECORDS[..words].to_vec();
            let new = NewRecord { tag: 2, ..NewRecord::default() };
            let answer = insert(&MESSAGE, &mut table, count, new);
            if count < room {
                assert_eq!(answer, Ok(count + 1));
                assert_eq!(table[RECORD_WORDS * count..][..RECORD_WORDS], [2, 0, 0, 0, NO_KEY]);
            } else {
                let bad = count > room;
                let refusal = if bad { Refusal::BadRecord } else { Refusal::NoRoom };
                let index = if bad { room } else { 0 };
                assert_eq!(answer, Err(RefusedInsert { refusal, index }));
                assert_eq!(table, RECORDS[..words]);
            }
        }
    }
}

#[test]
fn places_past_the_slice() {
    let s = [0x00, 0x00, 0x00];
    for len in 0..=3 {
        let s = &s[..len];
        for (at, end) in [(len + 1, 0), (0, len + 1), (len + 1, len + 1)]
            .into_iter()
            .chain(HUGE.map(|huge| (huge, 0)))
            .chain(HUGE.map(|huge| (0, huge)))
        {
            let refusal = Refusal::BadCap;
            let mut table = filled(77, 9);
            let fault = NOWHERE;
            let refused = RefusedRead { refusal, place: 0, count: 0, fault };
            assert_eq!(read_message(s, at, end, &mut table), Err(refused));
            assert_eq!(table, filled(77, 9));
            let refused = |reading| RefusedAt { refusal, reading, place: at, fault };
            assert_eq!(decode_varint_capped(s, at, end), Err(refused(Reading::Varint)));
            if at > len {
                assert_eq!(decode_varint(s, at), Err(refused(Reading::Varint)));
            }
            let after = |reading| RefusedAfter { refusal, reading, place: at, last: 5, fault };
            assert_eq!(decode_key(s, at, end, 5), Err(after(Reading::Key)));
            assert_eq!(step_at(s, at, end, 5), Err(after(Reading::Field)));
            for wire_type in TYPES {
                assert_eq!(decode_value(s, at, end, wire_type), Err(refused(Reading::Value)));
                assert_eq!(skip_field(s, at, end, wire_type), Err(refused(Reading::Skipped)));
            }
        }
    }
}

/// A key is a place inside the source or none; what is written does not hang on it.
#[test]
fn keys() {
    let source = [0x01, 0x01, 0xAA];
    let record = |key| Record { tag: 0, wire_type: 1, value: 2, length: 1, key };
    for key in [0, 1, 2, NO_KEY] {
        assert_eq!(payload_of(&source, record(key)), [0xAA]);
        assert_eq!(message(&[record(key)], &source), Ok(source.to_vec()));
    }
    for key in [3, 4, 1 << 32, NO_KEY - 1] {
        assert_eq!(payload_of(&source, record(key)), []);
        let refused = RefusedWrite { refusal: Refusal::BadRecord, index: 1, needed: 0 };
        assert_eq!(message(&[record(0), record(key)], &source), Err(refused));
        let mut table = [0, 1, 2, 1, key, 77, 77, 77, 77, 77];
        let refused = RefusedInsert { refusal: Refusal::BadRecord, index: 0 };
        assert_eq!(insert(&source, &mut table, 1, NewRecord::default()), Err(refused));
        assert_eq!(table[5..], [77; 5]);
    }
    for key in [0, 1, NO_KEY] {
        let field = Record { key, ..Record::default() };
        assert_eq!(message(&[field], &[]).is_ok(), key == NO_KEY);
    }
}

/// The bytes from one key to the next are the whole field, and its parts stand in it.
#[test]
fn whole_fields() {
    let message = [
        0x04, 0xFF, 0xFE, 0xFE, 0xFE, 0xFE, 0xFE, 0xFE, 0xFE, 0xFE, 0x09, 0x02, 0xC0, 0xDE, 0x02,
        1, 0, 0, 0, 0x03, 1, 0, 0, 0, 0, 0, 0, 0,
    ];
    let mut table = filled(77, RECORD_WORDS * 4);
    assert_eq!(read_message(&message, 0, 28, &mut table), Ok(Read { place: 28, count: 4 }));
    let keys = [0, 10, 14, 19, 28];
    let parts = [(None, 1), (Some(11), 12), (None, 15), (None, 20)];
    for (i, (length, value)) in parts.into_iter().enumerate() {
        let record = Record::at(&table, i).unwrap();
        let (key, end) = (keys[i], keys[i + 1]);
        assert_eq!(field_parts(&message, record), Some(Parts { key, length, value, end }));
        assert_eq!(field_bytes(&message, record), Some(&message[key..end]));
        assert_eq!(field_bytes(&message, Record { key: NO_KEY, ..record }), None);
        assert_eq!(field_bytes(&message[..key], record), None);
    }
    let far = Record { tag: 0, wire_type: 1, value: u64::MAX, length: 2, key: 0 };
    assert_eq!(field_parts(&message, far), None);
}

#[test]
fn the_limit() {
    let mut message = vec![0x00; LIMIT - 3];
    message.extend([0x00, 0x80, 0x00]); // FIELDS - 1 fields of two bytes, one of three
    let mut table = filled(77, RECORD_WORDS * FIELDS);
    let read = read_message(&message, 0, LIMIT, &mut table);
    assert_eq!(read, Ok(Read { place: LIMIT, count: FIELDS }));
    let mut buf = filled(0xA5, LIMIT + 1);
    let written = prepend_message(&message, &table, FIELDS, &mut buf);
    assert_eq!(written, Ok(Written { start: 1, length: LIMIT }));
    assert!(buf[0] == 0xA5 && buf[1..] == message);
    let short = read_message(&message, 0, LIMIT, &mut table[..RECORD_WORDS * FIELDS - 1]);
    let (refusal, fault) = (Refusal::NoRoom, NOWHERE);
    assert_eq!(short, Err(RefusedRead { refusal, place: 0, count: FIELDS, fault }));
    assert_eq!(pick_at(&message, 0, FIELDS - 1), Ok((FIELDS, Some(Value::Varint(128)))));
    assert_eq!(fields(&message).filter(Result::is_ok).count(), FIELDS);

    message.push(0x00);
    let refusal = Refusal::TooLong;
    let before = table.clone();
    let (reading, fault) = (Reading::Varint, NOWHERE);
    let refused = RefusedRead { refusal, place: 0, count: 0, fault };
    assert_eq!(read_message(&message, 0, 0, &mut table), Err(refused));
    assert_eq!(decode_varint(&message, 5), Err(RefusedAt { refusal, reading, place: 5, fault }));
    assert_eq!(pick(&message, 0), Err(refusal));
    assert_eq!(pick_early(&message, 0), Err(refusal));
    let refused = RefusedWrite { refusal, index: 0, needed: 0 };
    assert_eq!(encode_message(&message, &table, 0, &mut buf), Err(refused));
    assert_eq!(
        insert(&message, &mut table, 0, NewRecord::default()),
        Err(RefusedInsert { refusal, index: 0 })
    );
    assert!(table == before);
    let length = message.len() as u64;
    let whole = Record { tag: 0, wire_type: 1, value: 0, length, key: length - 1 };
    assert_eq!(payload_of(&message, Record { key: length, ..whole }), []);
    let part = payload_of(&message, whole);
    assert_eq!((part.as_ptr(), part.len()), (message.as_ptr(), message.len())); // a part, not a copy
    assert_eq!(
        read_payload(&message, whole, &mut table),
        Err(RefusedRead { refusal, place: 0, count: 0, fault })
    );

    // 1 byte of key, 3 of length: a payload of 1,048,571 bytes is the longest
    let payload = |length| [0, 1, 0, length, LIMIT as u64 - 1];
    assert_eq!(
        encode_message(&message[..LIMIT], &payload(1_048_571), 1, &mut []),
        Err(RefusedWrite { refusal: Refusal::NoRoom, index: 0, needed: LIMIT })
    );
    assert_eq!(
        encode_message(&message[..LIMIT], &payload(1_048_572), 1, &mut []),
        Err(refused_too_long())
    );
    // payloads of gigabytes, all told, and a bad record behind them
    let mut table = payload(LIMIT as u64).repeat(5_000);
    assert_eq!(encode_message(&message[..LIMIT], &table, 5_000, &mut []), Err(refused_too_long()));
    let bad = RefusedWrite { refusal: Refusal::BadRecord, index: 4_999, needed: 0 };
    for word in [2, 1] {
        let place = table.len() - word; // its length, its key
        table[place] += 1;
        assert_eq!(encode_message(&message[..LIMIT], &table, 5_000, &mut []), Err(bad));
        table[place] -= 1;
    }
}

/// The fields of the longest messages that have the most of them.
const FIELDS: usize = LIMIT / 2;

/// Tables, indexes and lines are on the heap: a thread needs no stack for them.
#[test]
fn the_longest_on_a_small_stack() {
    let work = || {
        let message = [4, 0].repeat(FIELDS);
        let mut table = filled(0, RECORD_WORDS * FIELDS);
        assert!(read_message(&message, 0, message.len(), &mut table).is_ok());
        let mut buf = filled(0, message.len());
        assert!(encode_message(&message, &table, FIELDS, &mut buf).is_ok());
        assert!(buf == message);
        let index = Index::of(&message).unwrap();
        assert!(index.fits(&message));
        assert_eq!(index.pick(&message, FIELDS as u32), Ok(Some(Value::Varint(0))));
        assert!(Index::from_line(&index.to_line(), message.len()) == Ok(index));
        let every_second = [8, 5].repeat(FIELDS / 2);
        let result = corrected(&message, &every_second).unwrap();
        assert!(result == [&[4, 0, 4, 5].repeat(FIELDS / 2)[..], &[4, 0]].concat());
        assert!(corrected(&result, &every_second) == Ok(result));
        let mut levels = filled(0, GRADED_WORDS * LEVELS);
        let sounding = sounding_of(&[0x04, 0x64], LEVELS);
        let read = Graded { station: 1, launch: 0, levels: LEVELS, grade: Grade::Canonical };
        assert_eq!(read_graded(&sounding, &mut levels, Grade::Canonical), Ok(read));
        let zeros = filled(0, LIMIT);
        assert!(unpack_varints(&zeros) == Ok(filled(0, LIMIT)));
        assert!(pack_varints(&filled(0, LIMIT)) == Ok(zeros));
    };
    std::thread::Builder::new().stack_size(32 << 10).spawn(work).unwrap().join().unwrap();
}

fn refused_too_long() -> RefusedWrite {
    RefusedWrite { refusal: Refusal::TooLong, index: 0, needed: 0 }
}

/// The index of MESSAGE, and a word behind it.
const INDEX: [u64; 7] = [1, 0, 2, 2, 4, 1, 77];

#[test]
fn indexes_of_every_small_size() {
    for words in 0..=7 {
        let mut index = filled(77, words);
        let answer = make_index(&MESSAGE, &mut index);
        let room = words / INDEX_WORDS;
        if room < 2 {
            assert_eq!((answer, index), (Err(Refusal::NoRoom), filled(77, words)));
        } else {
            assert_eq!((answer, &index[..]), (Ok(2), &INDEX[..words]));
        }
        for tags in (0..=4).chain(HUGE) {
            assert_eq!(index_fits(&MESSAGE, &INDEX[..words], tags), tags == 2 && room >= 2);
            let looked = pick_indexed(&MESSAGE, &INDEX[..words], tags, 2);
            let found = (tags == 2).then_some(Value::Varint(9));
            assert_eq!(looked, if tags > room { Err(Refusal::BadIndex) } else { Ok(found) });
            for line_len in [0, 1, 2, 3, 21, 22, 23, 41, 42, 43] {
                let mut line = filled(b'-', line_len);
                let answer = write_line(&INDEX[..words], tags, &mut line);
                let length = 2 + 20 * tags.min(4);
                let refused = if tags > room { Refusal::BadIndex } else { Refusal::NoRoom };
                if tags > room || length > line_len {
                    assert_eq!((answer, line), (Err(refused), filled(b'-', line_len)));
                    continue;
                }
                assert_eq!(answer, Ok(length));
                assert_eq!(line[..length], b"020000000100000000000200000002000004000001"[..length]);
                assert_eq!(line[length..], filled(b'-', line_len - length));
                let old = &b"0100000001000000020000000200040001"[..2 + 16 * tags];
                for line in [&line[..length], old] {
                    let mut read = filled(77, words);
                    assert_eq!(read_line(line, MESSAGE.len(), &mut read), Ok(tags));
                    assert_eq!(read[..3 * tags], INDEX[..3 * tags]);
                    assert_eq!(read[3 * tags..], filled(77, words - 3 * tags));
                }
            }
        }
    }
}

#[test]
fn an_index_with_a_word_off_does_not_fit() {
    for word in 0..6 {
        for other in [INDEX[word] + 1, INDEX[word].wrapping_sub(1), 1 << 32, u64::MAX] {
            let mut index = INDEX;
            index[word] = other;
            assert!(!index_fits(&MESSAGE, &index, 2), "{index:?}");
        }
    }
    assert!(!index_fits(&MESSAGE, &[1, 0, 2, 2, 4, 1, 3, 0, 1], 3));
}

#[test]
fn lookups_through_an_index_of_another_message() {
    use Refusal::*;
    let looked = |s: &[u8], index: &[u64], tag| pick_indexed(s, index, index.len() / 3, tag);
    let long = filled(0, LIMIT + 1);
    assert_eq!(looked(&long, &[], 0), Err(TooLong));
    assert_eq!(looked(&long, &[1, 0, 0], 0), Err(BadIndex));
    // every entry is tested, also those not asked
    let spoilt = [[1, 2, 1], [1, 0, 0], [0, 0, 1], [1 << 32, 0, 1]];
    for entry in spoilt {
        assert_eq!(looked(&[0, 0], &[&[0, 0, 1], &entry[..]].concat(), 0), Err(BadIndex));
    }
    assert_eq!(looked(&[0, 0], &[0, 0, 1, u32::MAX.into(), 0, 1], 0), Ok(Some(Value::Varint(0))));
    // the message ends early; a later key of another tag; what stands there is what is answered
    assert_eq!(looked(&[0, 0], &[0, 0, u64::MAX], 0), Err(BadIndex));
    assert_eq!(looked(&[0, 0, 4, 0], &[0, 0, 2], 0), Err(BadIndex));
    assert_eq!(looked(&[0, 0, 0, 0], &[0, 0, 2], 0), Err(Repeated));
    let there = Value::LengthDelimited { start: 2, length: 0 };
    assert_eq!(looked(&[5, 0], &[7, 0, 1], 7), Ok(Some(there)));
    // keys that overflow: the first, a later one, and one behind the first key's tag
    assert_eq!(looked(&[0x80, 0xFF, 0xFE, 0xFE, 0x3E, 0], &[7, 0, 1], 7), Err(TagOverflowed));
    let later = [0, 0, 0x80, 0xFF, 0xFE, 0xFE, 0x3E, 0];
    assert_eq!(looked(&later, &[0, 0, 2], 0), Err(TagOverflowed));
    let behind = [0xFC, 0xFE, 0xFE, 0xFE, 0x3E, 0, 4, 0];
    assert_eq!(looked(&behind, &[7, 0, 2], 7), Err(TagOverflowed));
}

#[test]
fn lines_that_are_none() {
    for line in [
        "0",
        "2",
        "00",
        "03",
        "10",
        "12",
        "20",
        "010",
        "020",
        "01\n",
        "02\n",
        "02 ",
        "020000000A00000000000",
        "020000000A0000000000010",
        "020000000a000000000001",
        "020000000G000000000001",
        "020000000:000000000001",
        "020000000@000000000001",
        "020000000/000000000001",
        "020000000A000000000000",
        "020000000A0000000000010000000A000000000001",
        "020000000B0000000000010000000A000000000001",
        "02é000000A00000000001",
        "030000000A000000000001",
        "020000000A00000001",
        "010000000A000000000001",
        "010000000A0000000",
        "010000000A000000010",
        "010000000a00000001",
        "010000000G00000001",
        "010000000A00000000",
        "010000000A000000010000000A00000001",
        "010000000B000000010000000A00000001",
        "01é000000A0000001",
    ] {
        for message_len in [0, 65_535, 65_536, LIMIT, usize::MAX] {
            let mut index = filled(77, 9);
            let answer = read_line(line.as_bytes(), message_len, &mut index);
            assert_eq!(answer, Err(Refusal::BadIndex), "{line}");
            assert_eq!(index, filled(77, 9));
            assert_eq!(Index::from_line(line, message_len), Err(Refusal::BadIndex), "{line}");
        }
    }
}

#[test]
fn lines_of_the_two_editions() {
    let old = "010000000AFFFF0001FFFFFFFF0000FFFF";
    let new = "020000000A00FFFF000001FFFFFFFF00000000FFFF";
    for message_len in [0, 1, 65_534, 65_535, 65_536, LIMIT, LIMIT + 1, usize::MAX] {
        let read = Index::from_line(new, message_len).unwrap();
        assert_eq!(read.words(), [10, 65_535, 1, u32::MAX.into(), 0, 65_535]);
        assert_eq!(read.to_line(), new);
        let empty = Index::from_line("02", message_len).map(|index| index.tags());
        assert_eq!(empty, Ok(0));
        if message_len <= 65_535 {
            assert_eq!(Index::from_line(old, message_len), Ok(read));
            assert_eq!(Index::from_line("01", message_len).unwrap().to_line(), "02");
        } else {
            assert_eq!(Index::from_line(old, message_len), Err(Refusal::BadIndex));
            assert_eq!(Index::from_line("01", message_len), Err(Refusal::BadIndex));
        }
    }
    // six digits of place and of count, and one more
    let most = (1 << 24) - 1;
    let mut line = [0; 22];
    assert_eq!(write_line(&[0, most, most], 1, &mut line), Ok(22));
    assert_eq!(&line, b"0200000000FFFFFFFFFFFF");
    assert_eq!(Index::from_line("0200000000FFFFFFFFFFFF", 0).unwrap().words(), [0, most, most]);
    for index in [[0, most + 1, 1], [0, 0, most + 1], [0, 0, 0], [1 << 32, 0, 1]] {
        let before = line;
        assert_eq!(write_line(&index, 1, &mut line), Err(Refusal::BadIndex));
        assert_eq!(line, before);
    }
}

#[test]
fn an_index_that_owns_its_words() {
    let index = Index::of(&MESSAGE).unwrap();
    assert_eq!((index.words(), index.tags()), (&INDEX[..6], 2));
    assert!(index.fits(&MESSAGE) && !index.fits(&MESSAGE[..4]) && !index.fits(&MESSAGE[..5]));
    assert_eq!(index.pick(&MESSAGE, 1), Err(Refusal::Repeated));
    assert_eq!(index.pick(&MESSAGE[..4], 2), Err(Refusal::BadIndex));
    assert_eq!(Index::from_line(&index.to_line(), MESSAGE.len()), Ok(index));
    assert_eq!(Index::of(&MESSAGE[..5]), Err(Refusal::Truncated));
    assert_eq!(Index::of(&filled(0, LIMIT + 1)), Err(Refusal::TooLong));
    assert_eq!(Index::of(&[]).unwrap().to_line(), "02");
    // the most fields, and the most tags
    let most = Index::of(&filled(0, LIMIT - 1)).unwrap();
    assert_eq!(most.to_line(), "020000000000000007FFFF");
    let tags = Index::of(&[4, 0].repeat(FIELDS)).unwrap();
    assert_eq!(tags.tags(), FIELDS);
    assert_eq!(tags.to_line().len(), 2 + 20 * FIELDS);
    assert!(Index::from_line(&tags.to_line(), LIMIT) == Ok(tags));
}

#[test]
fn results_in_every_small_buffer() {
    let correction = [0x04, 0x05, 0x08, 0x06]; // tags 1 and 3
    let result = [0x04, 0x05, 0x04, 0x09, 0x04, 0x06];
    assert_eq!(corrected(&MESSAGE, &correction), Ok(result.to_vec()));
    assert_eq!(corrected(&result, &correction), Ok(result.to_vec()));
    for room in 0..=MESSAGE.len() + correction.len() {
        let mut buf = filled(0xA5, room);
        let answer = write_corrected(&MESSAGE, &correction, &mut buf);
        if room < result.len() {
            assert_eq!((answer, buf), (Err(Refusal::NoRoom), filled(0xA5, room)));
        } else {
            assert_eq!((answer, &buf[..6]), (Ok(6), &result[..]));
            assert_eq!(buf[6..], filled(0xA5, room - 6));
        }
    }
    // nothing corrected, nothing there, all replaced by itself
    assert_eq!(corrected(&MESSAGE, &[]), Ok(MESSAGE.to_vec()));
    assert_eq!(corrected(&[], &MESSAGE), Ok(MESSAGE.to_vec()));
    assert_eq!(corrected(&MESSAGE, &MESSAGE), Ok(MESSAGE.to_vec()));
}

/// A part lies in its supplier: it is the same memory, also where two messages have the same bytes.
#[test]
fn parts_of_the_supplier() {
    let lies = |part: &[u8], of: &[u8], start: usize, length: usize| {
        assert_eq!((part.as_ptr(), part.len()), (of[start..].as_ptr(), length));
    };
    let (original, correction) = (MESSAGE.to_vec(), MESSAGE.to_vec());
    lies(corrected_part(&original, &correction, 2), &correction, 5, 1);
    lies(corrected_part(&original, &[], 2), &original, 5, 1);
    lies(corrected_part(&[], &correction, 2), &correction, 5, 1);
    lies(corrected_part(&original, &original, 2), &original, 5, 1);
    // none, repeated, refused: the original's front
    lies(corrected_part(&original, &correction, 3), &original, 0, 0);
    lies(corrected_part(&original, &correction, 1), &original, 0, 0);
    lies(corrected_part(&original, &correction[..5], 2), &original, 0, 0);
    lies(corrected_part(&original[..5], &correction, 2), &original, 0, 0);
    // an empty payload has its own place
    let empty = [0x01, 0x00];
    lies(corrected_part(&empty, &[], 0), &empty, 2, 0);
    lies(corrected_part(&original, &empty, 0), &empty, 2, 0);
    assert_eq!(corrected_by(&original, &empty, 0), Ok(Some(Supplier::Correction)));
    // every type: bytes as they stand, a payload's without its length
    let types =
        [0x04, 0x80, 0x00, 0x05, 0x01, 0xC0, 0x06, 1, 2, 3, 4, 0x07, 1, 2, 3, 4, 5, 6, 7, 8];
    for (tag, start, length) in [(1, 1, 2), (2, 5, 1), (3, 7, 4), (4, 12, 8)] {
        lies(corrected_part(&types, &empty, tag), &types, start, length);
        lies(corrected_part(&empty, &types, tag), &types, start, length);
    }
}

#[test]
fn suppliers_and_their_refusals() {
    use Refusal::*;
    use Supplier::*;
    let (once, twice) = ([0, 5], [0, 0, 0, 0]);
    assert_eq!(corrected_by(&twice, &once, 0), Ok(Some(Correction)));
    assert_eq!(corrected_by(&once, &twice, 0), Err(Repeated));
    assert_eq!(corrected_by(&once, &[], 0), Ok(Some(Original)));
    assert_eq!(corrected_by(&twice, &[4, 5], 0), Err(Repeated));
    let highest = [0xFC, 0xFE, 0xFE, 0xFE, 0x3E, 7];
    assert_eq!(corrected_by(&highest, &once, u32::MAX), Ok(Some(Original)));
    assert_eq!(corrected_part(&highest, &once, u32::MAX), [7]);
    assert_eq!(corrected(&highest, &[4, 7]), Ok(vec![4, 7, 0xF8, 0xFE, 0xFE, 0xFE, 0x3E, 7]));

    let invalid = [&[0x80], &[0xFF; 8][..]].concat();
    let overflowed = [0x80, 0xFF, 0xFE, 0xFE, 0x3E, 0x00];
    let long = filled(0, LIMIT + 1);
    let bad: [(&[u8], Refusal); 5] = [
        (&[0], Truncated),
        (&[0; 5], Truncated), // before Repeated, which needs the whole message
        (&invalid, InvalidVarint),
        (&overflowed, TagOverflowed),
        (&long, TooLong),
    ];
    let good: [&[u8]; 3] = [&[], &once, &twice];
    for (s, refusal) in bad {
        for other in good.into_iter().chain(bad.map(|(other, _)| other)) {
            let mut buf = filled(0xA5, 9);
            for tag in 0..2 {
                assert_eq!(corrected_by(s, other, tag), Err(refusal)); // the original's first
                assert_eq!(corrected_part(s, other, tag), []);
            }
            assert_eq!(write_corrected(s, other, &mut buf), Err(refusal));
            assert_eq!(corrected(s, other), Err(refusal));
            assert_eq!(buf, filled(0xA5, 9));
        }
        for other in good {
            assert_eq!(corrected_by(other, s, 0), Err(refusal));
            assert_eq!(corrected(other, s), Err(refusal));
        }
    }
}

/// The longest result, and one byte more: the original is one payload, the correction a field behind it.
#[test]
fn the_longest_result() {
    for (spare, refusal) in [(6, None), (5, Some(Refusal::TooLong))] {
        let payload = filled(0, LIMIT - spare);
        let field =
            Field { tag: 0, value: Value::LengthDelimited { start: 0, length: payload.len() } };
        let original = message(&[field.into()], &payload).unwrap();
        let result = corrected(&original, &[4, 0]);
        assert_eq!(result.as_ref().err(), refusal.as_ref());
        assert!(result.map_or(true, |bytes| bytes == [&original[..], &[4, 0]].concat()));
        let no_room = write_corrected(&original, &[4, 0], &mut filled(0, LIMIT - 1));
        assert_eq!(no_room, Err(refusal.unwrap_or(Refusal::NoRoom)));
        assert_eq!(corrected_part(&original, &[4, 0], 0).len(), payload.len());
    }
}

/// A run of each type, of three values, and their records.
const RUNS: [(WireType, &[u8], [u64; 15]); 4] = [
    (
        WireType::Varint,
        &[5, 0x80, 0, 7],
        [0, 0, 5, 0, NO_KEY, 0, 0, 128, 0, NO_KEY, 0, 0, 7, 0, NO_KEY],
    ),
    (
        WireType::LengthDelimited,
        &[1, 0xAA, 0, 2, 1, 2],
        [0, 1, 1, 1, NO_KEY, 0, 1, 3, 0, NO_KEY, 0, 1, 4, 2, NO_KEY],
    ),
    (
        WireType::ThirtyTwoBit,
        &[1, 0, 0, 0, 0, 1, 0, 0, 0xFF, 0xFF, 0xFF, 0xFF],
        [0, 2, 1, 4, NO_KEY, 0, 2, 256, 4, NO_KEY, 0, 2, u32::MAX as u64, 4, NO_KEY],
    ),
    (
        WireType::SixtyFourBit,
        &[1, 0, 0, 0, 0, 0, 0, 0, 0, 1, 0, 0, 0, 0, 0, 0, 255, 255, 255, 255, 255, 255, 255, 255],
        [0, 3, 1, 8, NO_KEY, 0, 3, 256, 8, NO_KEY, 0, 3, u64::MAX, 8, NO_KEY],
    ),
];

#[test]
fn runs_into_every_small_table() {
    for (wire_type, run, records) in RUNS {
        assert_eq!(run_count(run, wire_type), Ok(3));
        for number in (0..5).chain(HUGE) {
            let record = Record::at(&records, number).map(|record| record.field().unwrap().value);
            assert_eq!(run_value(run, wire_type, number), Ok(record));
        }
        for words in 0..=17 {
            let mut table = filled(77, words);
            let answer = read_run(run, wire_type, &mut table);
            if words < 15 {
                assert_eq!((answer, table), (Err(Refusal::NoRoom), filled(77, words)));
            } else {
                assert_eq!((answer, &table[..15]), (Ok(3), &records[..]));
                assert_eq!(table[15..], filled(77, words - 15));
            }
        }
        // one byte less, and no value is shown; the table stays
        let mut table = filled(77, 15);
        for number in 0..4 {
            assert_eq!(
                run_value(&run[..run.len() - 1], wire_type, number).is_err(),
                wire_type != WireType::Varint
            );
        }
        if wire_type != WireType::Varint {
            assert_eq!(
                read_run(&run[..run.len() - 1], wire_type, &mut table),
                Err(Refusal::Truncated)
            );
            assert_eq!(table, filled(77, 15));
        }
    }
}

#[test]
fn runs_out_of_every_small_table() {
    for (wire_type, run, records) in RUNS {
        for words in 0..=15 {
            for count in (0..=4).chain(HUGE) {
                for buf_len in [0, run.len() - 1, run.len(), run.len() + 2] {
                    let mut buf = filled(0xA5, buf_len);
                    let answer = write_run(run, &records[..words], count, wire_type, &mut buf);
                    let room = words / RECORD_WORDS;
                    let length = length_of(wire_type, count);
                    let refused = if count > room {
                        RefusedWrite { refusal: Refusal::BadRecord, index: room, needed: 0 }
                    } else {
                        RefusedWrite { refusal: Refusal::NoRoom, index: 0, needed: length }
                    };
                    if count > room || length > buf_len {
                        assert_eq!((answer, buf), (Err(refused), filled(0xA5, buf_len)));
                    } else {
                        assert_eq!(answer, Ok(Written { start: 0, length }));
                        assert_eq!(buf[..length], run[..length]);
                        assert_eq!(buf[length..], filled(0xA5, buf_len - length));
                    }
                }
            }
        }
    }
}

/// The bytes of the first values of a run in RUNS.
fn length_of(wire_type: WireType, count: usize) -> usize {
    let ends = match wire_type {
        WireType::Varint => [0, 1, 3, 4],
        WireType::LengthDelimited => [0, 2, 3, 6],
        WireType::ThirtyTwoBit => [0, 4, 8, 12],
        WireType::SixtyFourBit => [0, 8, 16, 24],
    };
    ends.get(count).copied().unwrap_or(0)
}

#[test]
fn records_that_are_not_of_the_run() {
    let refused = |index| Err(RefusedWrite { refusal: Refusal::BadRecord, index, needed: 0 });
    for (wire_type, run, records) in RUNS {
        for (number, other) in (0..3).flat_map(|number| TYPES.map(|other| (number, other))) {
            let mut table = records;
            table[5 * number] = 1; // another tag
            assert_eq!(write_run(run, &table, 3, wire_type, &mut []), refused(number));
            table = records;
            table[5 * number + 1] = other as u64;
            let answer = write_run(run, &table, 3, wire_type, &mut []);
            if other != wire_type {
                assert_eq!(answer, refused(number));
            }
            table = records;
            table[5 * number + 3] = 1 << 20; // no length word, nor a payload's
            assert_eq!(write_run(run, &table, 3, wire_type, &mut []), refused(number));
            table = records;
            table[5 * number + 4] = run.len() as u64; // no place of a key
            assert_eq!(write_run(run, &table, 3, wire_type, &mut []), refused(number));
        }
        for other in TYPES.into_iter().filter(|&other| other != wire_type) {
            assert_eq!(write_run(run, &records, 3, other, &mut []), refused(0));
        }
    }
    let wide = [0, 2, 1 << 32, 4, NO_KEY];
    assert_eq!(write_run(&[], &wide, 1, WireType::ThirtyTwoBit, &mut []), refused(0));
}

#[test]
fn runs_that_are_refused() {
    use Refusal::*;
    let invalid = [0xFF; 9];
    let late = [&[0][..], &invalid, &[0x80]].concat();
    let long = filled(0, LIMIT + 1);
    let cases: [(&[u8], WireType, Refusal); 9] = [
        (&[0x80], WireType::Varint, Truncated),
        (&[0, 0x80], WireType::Varint, Truncated),
        (&invalid, WireType::Varint, InvalidVarint),
        (&late, WireType::Varint, InvalidVarint),
        (&[0, 2, 0xAA], WireType::LengthDelimited, Truncated),
        (&invalid, WireType::LengthDelimited, InvalidVarint),
        (&[0; 3], WireType::ThirtyTwoBit, Truncated),
        (&[0; 12], WireType::SixtyFourBit, Truncated),
        (&long, WireType::Varint, TooLong),
    ];
    for (run, wire_type, refusal) in cases {
        assert_eq!(run_count(run, wire_type), Err(refusal));
        for number in (0..3).chain(HUGE) {
            assert_eq!(run_value(run, wire_type, number), Err(refusal)); // also before the bad one
        }
        for words in 0..9 {
            let mut table = filled(77, words);
            assert_eq!(read_run(run, wire_type, &mut table), Err(refusal)); // before NoRoom
            assert_eq!(table, filled(77, words));
        }
    }
    assert_eq!(unpack_varints(&[0x80]), Err(Truncated));
    assert_eq!(unpack_payloads(&[2, 0xAA]), Err(Truncated));
    assert_eq!(unpack_fixed32(&[0; 5]), Err(Truncated));
    assert_eq!(unpack_fixed64(&[0; 4]), Err(Truncated));
    assert_eq!(unpack_varints(&long), Err(TooLong));
    assert_eq!(write_run(&long, &[], 1, WireType::Varint, &mut []), Err(refused_too_long()));
}

#[test]
fn runs_as_slices() {
    let [(_, varints, _), (_, payloads, _), (_, fours, _), (_, eights, _)] = RUNS;
    assert_eq!(unpack_varints(varints), Ok(vec![5, 128, 7]));
    assert_eq!(pack_varints(&[5, 128, 7]), Ok(varints.to_vec()));
    assert_eq!(unpack_payloads(payloads), Ok(vec![&[0xAA][..], &[], &[1, 2]]));
    assert_eq!(pack_payloads(&[&[0xAA], &[], &[1, 2]]), Ok(payloads.to_vec()));
    assert_eq!(unpack_fixed32(fours), Ok(vec![1, 256, u32::MAX]));
    assert_eq!(pack_fixed32(&[1, 256, u32::MAX]), Ok(fours.to_vec()));
    assert_eq!(unpack_fixed64(eights), Ok(vec![1, 256, u64::MAX]));
    assert_eq!(pack_fixed64(&[1, 256, u64::MAX]), Ok(eights.to_vec()));
    assert_eq!((pack_varints(&[]), unpack_varints(&[])), (Ok(vec![]), Ok(vec![])));
    assert_eq!((pack_payloads(&[]), unpack_payloads(&[])), (Ok(vec![]), Ok(vec![])));
    // around the buffer that is tried first, up to the longest, and above it
    for count in [255, 256, 257, 5_000, LIMIT] {
        let run = pack_varints(&filled(7, count)).unwrap();
        assert!(run == filled(7, count) && unpack_varints(&run) == Ok(filled(7, count)));
    }
    assert_eq!(pack_varints(&filled(7, LIMIT + 1)), Err(refused_too_long()));
    assert_eq!(pack_fixed32(&filled(7, LIMIT / 4 + 1)), Err(refused_too_long()));
    assert_eq!(pack_fixed64(&filled(7, LIMIT / 8 + 1)), Err(refused_too_long()));
    assert_eq!(pack_payloads(&[&filled(7, LIMIT)]), Err(refused_too_long()));
    assert_eq!(pack_payloads(&[&filled(7, LIMIT), &[1]]), Err(refused_too_long()));
}

/// A damaged message of each kind, and its refusal in a sentence (rules F1 to F5 of docs/FORMAT.md).
/// The words of a payload's record in a working copy.
fn payload_row(tag: u64, start: usize, length: usize) -> [u64; RECORD_WORDS] {
    [tag, WireType::LengthDelimited as u64, start as u64, length as u64, NO_KEY]
}

/// All three edits of a copy that none of them takes: the refusal, and nothing is changed.
fn no_copy(room: &[u8], table: &[u64], count: usize, refusal: Refusal, index: usize) {
    let refused = Err(RefusedEdit { refusal, index });
    let (mut now, mut words) = (room.to_vec(), table.to_vec());
    for index in [0, 9] {
        assert_eq!(remove_record(&now, &mut words, count, index), refused);
        assert_eq!(replace_payload(&mut now, &mut words, count, index, &[7; 99]), refused);
    }
    assert_eq!(insert_payload(&mut now, &mut words, count, 0, &[7; 99]), refused);
    assert!(now == room && words == table);
}

#[test]
fn copies_that_are_none() {
    let (room, bad) = ([0xAA; 4], Refusal::BadRecord);
    let copy = |rows: &[(u64, usize, usize)]| {
        rows.iter()
            .flat_map(|&(tag, start, length)| payload_row(tag, start, length))
            .collect::<Vec<_>>()
    };
    let two = copy(&[(0, 0, 1), (0, 1, 1)]);
    no_copy(&filled(0, LIMIT + 1), &two, 2, Refusal::TooLong, 0);
    for count in [3, 100, usize::MAX] {
        no_copy(&filled(0, LIMIT + 1), &two, count, Refusal::TooLong, 0);
        no_copy(&room, &two, count, bad, 2);
    }
    no_copy(&room, &copy(&[(0, 0, 1), (0, 1, 4)]), 2, bad, 1);
    no_copy(&room, &copy(&[(1, 0, 1), (0, 1, 1)]), 2, Refusal::OutOfOrder, 1);
    no_copy(&room, &copy(&[(0, 0, 2), (0, 1, 1)]), 2, bad, 1);
    no_copy(&room, &copy(&[(0, 1, 2), (0, 0, 2)]), 2, bad, 1); // the later by its index
    no_copy(&room, &copy(&[(0, 0, 1), (0, 1, 1), (0, 1, 1), (0, 0, 1)]), 4, bad, 2);
    let mut keyed = copy(&[(0, 0, 0), (0, 0, 2), (0, 1, 1)]);
    keyed[RECORD_WORDS - 1] = 0;
    no_copy(&room, &keyed, 3, bad, 2); // overlaps before key words
    no_copy(&room, &keyed, 2, bad, 0);
    // two that touch, and an empty one inside another
    let mut fine = copy(&[(0, 0, 2), (0, 2, 2), (0, 1, 0)]);
    assert_eq!(remove_record(&room, &mut fine, 3, 2), Ok(2));
}

/// Payloads of every small length into rooms of every small size, whole and behind one that is replaced.
#[test]
fn copies_of_every_small_size() {
    for size in 0..6 {
        for first in 0..=size {
            for second in 0..8 {
                let mut copy = WorkingCopy::new(size, 2);
                assert_eq!(copy.insert(1, &filled(1, first)), Ok(()));
                let fits = first + second <= size;
                let no_room = RefusedEdit { refusal: Refusal::NoRoom, index: 0 };
                let answer = if fits { Ok(()) } else { Err(no_room) };
                assert_eq!(copy.insert(1, &filled(2, second)), answer);
                assert_eq!(copy.len(), 1 + fits as usize);
                assert_eq!(copy.spare(), size - first - if fits { second } else { 0 });
                assert_eq!(copy.payload(1).is_some(), fits);
                // its own bytes are free
                let (last, other) = (copy.len() - 1, if fits { first } else { 0 });
                assert_eq!(copy.replace(last, &filled(3, size - other)), Ok(()));
                assert_eq!(copy.replace(last, &filled(4, size - other + 1)), Err(no_room));
                assert_eq!(copy.payload(last), Some(&filled(3, size - other)[..]));
                assert_eq!(copy.spare(), 0);
                let full = (copy.len() == 2).then_some(no_room);
                assert_eq!(copy.insert(0, &[]).err(), full);
                let there = copy.len();
                let none = Err(RefusedEdit { refusal: Refusal::BadRecord, index: there });
                assert_eq!(copy.remove(there), none);
                assert_eq!(copy.replace(there, &[]), none);
                for _ in 0..there {
                    assert_eq!(copy.remove(0), Ok(()));
                }
                assert!(copy.is_empty() && copy.message() == Ok(vec![]));
                assert_eq!((copy.spare(), copy.get(0), copy.payload(0)), (size, None, None));
            }
        }
    }
}

#[test]
fn a_copy_of_a_message() {
    let message = [0x04, 0x05, 0x09, 0x02, 0xC0, 0xDE, 0x02, 1, 0, 0, 0];
    let mut copy = WorkingCopy::of(&message, 0, 0).unwrap();
    assert_eq!(copy.message().as_deref(), Ok(&message[..]));
    assert!(copy.records().all(|record| record.key == NO_KEY));
    assert_eq!(copy.records().map(|record| record.tag).collect::<Vec<_>>(), [1, 3, 3]);
    assert_eq!((copy.payload(0), copy.payload(1)), (None, Some(&[0xC0, 0xDE][..])));
    assert_eq!(copy.insert(0, &[]).unwrap_err().to_string(), "NoRoom (5), index 0");
    assert_eq!(copy.replace(2, &[]).unwrap_err().to_string(), "BadRecord (6), index 2");
    copy.grow(2, 1);
    assert_eq!(copy.spare(), message.len());
    assert_eq!(copy.insert_fixed64(3, 7), Ok(()));
    assert_eq!(copy.replace(1, &filled(9, message.len() + 2)), Ok(()));
    assert_eq!(copy.encode(&mut []).unwrap_err().needed, copy.message().unwrap().len());
    let truncated = WorkingCopy::of(&message[..5], 99, 99).unwrap_err();
    assert_eq!((truncated.refusal, truncated.place), (Refusal::Truncated, 2));
    assert_eq!(WorkingCopy::of(&filled(0, LIMIT + 1), 0, 0).unwrap_err().refusal, Refusal::TooLong);
    let mut too_long = WorkingCopy::new(LIMIT + 1, 1);
    assert_eq!(too_long.insert(0, &[]).unwrap_err().refusal, Refusal::TooLong);
    // a good copy whose message is too long to be written
    let mut whole = WorkingCopy::new(LIMIT - 3, 1);
    assert_eq!(whole.insert(0, &filled(0, LIMIT - 3)), Ok(()));
    assert_eq!(whole.message(), Err(refused_too_long()));
}

const GRADES: [Grade; 3] = [Grade::NotCanonical, Grade::HasExtensions, Grade::Canonical];
const ONES: [u8; 9] = [0xFF, 0xFE, 0xFE, 0xFE, 0xFE, 0xFE, 0xFE, 0xFE, 0xFE];
/// The most levels that a message has bytes for, each with its pressure alone.
const LEVELS: usize = (LIMIT - 4) / 4;

/// A sounding of station 1, launch 0, and a level of these fields, so many times.
fn sounding_of(level: &[u8], times: usize) -> Vec<u8> {
    let head = [0x04, 0x01, 0x04, 0x00];
    let one = [&[0x01, level.len() as u8], level].concat();
    let mut sounding = [&head[..], &one.repeat(times)].concat();
    if times > 0 {
        sounding[4] = 0x05; // the first level's key rises by a tag
    }
    sounding
}

#[test]
fn graded_levels_into_every_small_table() {
    let level = [0x04, 0x64, 0x04, 0x03, 0x08, 0x07, 0x04, 0x5A];
    let row = [100, 1, 3, 0, u64::MAX, 1, 7, 1, 90];
    for times in 0..4 {
        let sounding = sounding_of(&level, times);
        for words in 0..4 * GRADED_WORDS {
            let mut levels = filled(77, words);
            let answer = read_graded(&sounding, &mut levels, Grade::Canonical);
            let mut expected = filled(77, words);
            if GRADED_WORDS * times > words {
                assert_eq!(answer, Err(Refusal::NoRoom));
            } else {
                let read = Graded { station: 1, launch: 0, levels: times, grade: Grade::Canonical };
                assert_eq!(answer, Ok(read));
                expected[..GRADED_WORDS * times].copy_from_slice(&row.repeat(times));
            }
            assert_eq!(levels, expected);
            assert_eq!(Windy::at(&levels, words / GRADED_WORDS), None);
        }
    }
    let level = Level { pressure: 100, temperature: Some(-2), depression: None };
    assert_eq!(Windy::at(&row, 0), Some(Windy { level, speed: Some(7), direction: Some(90) }));
}

/// Each level under each grade; what is taken, a reader of the first edition takes too, and it has the same five words.
#[test]
fn grades_of_levels() {
    let ones = |key: u8| [&[0x04, 0x64, key], &ONES[..]].concat();
    let (canonical, extended, written) =
        (Grade::Canonical, Grade::HasExtensions, Grade::NotCanonical);
    let levels = [
        (vec![0x04, 0x64], canonical, None),
        (vec![0x04, 0x64, 0x0C, 0xD0, 0x0E, 0x04, 0xE7, 0x01], canonical, None), // 2,000 and 359
        (ones(0x04), written, Some(Refusal::NotCanonical)),
        (ones(0x08), written, Some(Refusal::NotCanonical)),
        (ones(0x0C), written, Some(Refusal::NotCanonical)),
        (ones(0x10), written, Some(Refusal::NotCanonical)),
        (ones(0x14), extended, Some(Refusal::UnknownField)), // tag 6
        (vec![0x00, 0x01, 0x04, 0x64], extended, Some(Refusal::UnknownField)),
        ([&ones(0x04)[..], &[0x20, 0x01]].concat(), written, Some(Refusal::NotCanonical)),
        ([&[0x00, 0x01][..], &ones(0x04)].concat(), written, Some(Refusal::UnknownField)),
    ];
    for (level, grade, first) in levels {
        let sounding = sounding_of(&level, 2);
        let (mut taken, mut five) = (filled(77, 2 * GRADED_WORDS), filled(77, 2 * LEVEL_WORDS));
        assert_eq!(read_graded(&sounding, &mut taken, written).unwrap().grade, grade);
        assert_eq!(read_sounding(&sounding, &mut five).unwrap().levels, 2);
        for index in 0..2 {
            assert_eq!(Windy::at(&taken, index).map(|windy| windy.level), Level::at(&five, index));
        }
        for least in GRADES {
            let mut table = filled(77, 2 * GRADED_WORDS);
            let answer = read_graded(&sounding, &mut table, least);
            if least <= grade {
                assert_eq!(answer, Ok(Graded { station: 1, launch: 0, levels: 2, grade }));
                assert_eq!(table, taken);
                continue;
            }
            // below Canonical an unknown tag is taken, so that only all ones can be refused
            let below = if least == canonical { first } else { Some(Refusal::NotCanonical) };
            assert_eq!(answer.err(), below, "{level:02X?} {least:?}");
            assert_eq!(table, filled(77, 2 * GRADED_WORDS));
        }
    }
}

#[test]
fn winds_that_are_refused() {
    let levels: [(&[u8], Refusal); 7] = [
        (&[0x04, 0x64, 0x0C, 0xD1, 0x0E], Refusal::OutOfRange), // 2,001
        (&[0x04, 0x64, 0x10, 0xE8, 0x01], Refusal::OutOfRange), // 360
        (&[0x04, 0x64, 0x0D, 0x00], Refusal::WrongWireType),
        (&[0x04, 0x64, 0x11, 0x00], Refusal::WrongWireType),
        (&[0x04, 0x64, 0x0C, 0x01, 0x01, 0x00], Refusal::Repeated), // before its type
        (&[0x04, 0x64, 0x10, 0x01, 0x00, 0x01], Refusal::Repeated),
        (&[0x0C, 0x01], Refusal::MissingField),
    ];
    for (level, refusal) in levels {
        // behind one whose grade is too low, and with no room
        let before = sounding_of(&[0x04, 0x64, 0x14, 0x00], 1);
        let sounding = [&before[..], &[0x01, level.len() as u8], level].concat();
        for least in GRADES {
            for words in [0, 2 * GRADED_WORDS] {
                let mut table = filled(77, words);
                assert_eq!(read_graded(&sounding, &mut table, least), Err(refusal), "{level:02X?}");
                assert_eq!(table, filled(77, words));
            }
        }
    }
    let too_long = filled(0, LIMIT + 1);
    assert_eq!(read_graded(&too_long, &mut [], Grade::Canonical), Err(Refusal::TooLong));
    assert_eq!(read_graded(&[], &mut [], Grade::Canonical), Err(Refusal::MissingField));
    assert!(Grade::NotCanonical < Grade::HasExtensions && Grade::HasExtensions < Grade::Canonical);
}

#[test]
fn refusals_in_a_sentence() {
    let told = |s: &[u8], end| read_message(s, 0, end, &mut [0; 8]).unwrap_err().to_string();
    let begins = |kind, place, why, failing| {
        format!("{kind}: the message's field at {place} {why}; the failing read began at {failing}")
    };
    let truncated = |place, failing| begins("Truncated (1)", place, "ends too soon", failing);
    assert_eq!(told(&[0x04], 1), truncated(0, 1)); // a key, and no value
    assert_eq!(
        told(&[0x00, 0x07, 0x00, 0x80], 4),
        truncated(2, 3) + " and looked at 1 byte of a varint"
    );
    assert_eq!(
        told(&[0x00, 0x07, 0x80, 0x80], 4),
        truncated(2, 2) + " and looked at 2 bytes of a varint"
    );
    assert_eq!(told(&[0x01, 0x03, 0xAA], 3), truncated(0, 1)); // a payload that is too long: its length
    assert_eq!(told(&[0x02, 0x01, 0x02], 3), truncated(0, 1)); // four bytes that are not there
    assert_eq!(told(&[0x00, 0x80, 0x00], 2), truncated(0, 3)); // the end was passed: the place reached
    let mut invalid = vec![0x00];
    invalid.extend([0xFF; 9]);
    let why = "has a varint of 2^64 or more";
    let said = begins("InvalidVarint (2)", 0, why, 1) + " and looked at 9 bytes of a varint";
    assert_eq!(told(&invalid, 10), said);
    let why = "has a tag above 4,294,967,295";
    assert_eq!(
        told(&[0x80, 0xFF, 0xFE, 0xFE, 0x3E, 0x00], 6),
        begins("TagOverflowed (3)", 0, why, 0)
    );
    assert_eq!(told(&[], 1), "BadCap (8): a place, a start or an end is above the slice's length");
    let short = read_message(&[0x00, 0x07], 0, 2, &mut []).unwrap_err();
    assert_eq!(short.to_string(), "NoRoom (5): the table has no room for 1 fields");
}
