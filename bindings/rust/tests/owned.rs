//! What owns its words, beside the functions that it calls: messages at every length, and lines of every kind.
use capgauze::*;

/// A message with a field of every type, a tag that repeats, a payload that is a message and an empty one.
const ALL_KINDS: [u8; 29] = [
    0x04, 0x80, 0x00, 0x00, 0x07, 0x05, 0x02, 0x04, 0x07, 0x06, 0x01, 0x02, 0x03, 0x04, 0x07, 0x01,
    0x02, 0x03, 0x04, 0x05, 0x06, 0x07, 0x08, 0x01, 0x00, 0x80, 0x00, 0xFF, 0x00,
];

/// Cut at every place and with every byte changed: the refusal is the reader's own, and so are the records.
#[test]
fn messages() {
    let mut slices: Vec<Vec<u8>> = (0..=ALL_KINDS.len()).map(|n| ALL_KINDS[..n].to_vec()).collect();
    for (place, change) in (0..ALL_KINDS.len()).flat_map(|n| [1, 4, 0x80, 0xFF].map(|x| (n, x))) {
        let mut slice = ALL_KINDS.to_vec();
        slice[place] ^= change;
        slices.push(slice);
    }
    assert_eq!(Message::read(&ALL_KINDS).unwrap().len(), 7);
    let (mut read, mut refused) = (0, 0);
    for slice in &slices {
        let mut table = [0; RECORD_WORDS * ALL_KINDS.len()];
        match (Message::read(slice), read_message(slice, 0, slice.len(), &mut table)) {
            (Err(ours), Err(theirs)) => {
                assert_eq!(ours, theirs);
                refused += 1;
            }
            (Ok(message), Ok(Read { count, .. })) => {
                assert_eq!((message.len(), message.is_empty()), (count, count == 0));
                assert_eq!(message.table(), &table[..RECORD_WORDS * count]);
                let fields: Result<Vec<Field>, _> = fields(slice).collect();
                assert_eq!(message.fields().collect::<Vec<_>>(), fields.unwrap());
                let bytes =
                    message.records().flat_map(|record| field_bytes(slice, record).unwrap());
                assert_eq!(&bytes.copied().collect::<Vec<u8>>(), slice);
                for index in 0..=count {
                    let record = Record::at(&table[..RECORD_WORDS * count], index);
                    assert_eq!(message.record(index), record);
                    assert_eq!(message.field(index), record.and_then(|record| record.field()));
                    let payload = record.filter(|r| r.wire_type == 1).map(|r| payload_of(slice, r));
                    assert_eq!(message.payload(index), payload);
                }
                read += 1;
            }
            (ours, theirs) => panic!("{slice:?}: {ours:?}, {theirs:?}"),
        }
    }
    assert!(read > 20 && refused > 20, "{read} read, {refused} refused");
}

#[test]
fn longest_message() {
    let mut bytes = vec![0; LIMIT + 1];
    assert_eq!(Message::read(&bytes).unwrap_err().refusal, Refusal::TooLong);
    bytes.truncate(LIMIT - 1);
    assert_eq!(Message::read(&bytes).unwrap().len(), LIMIT / 2);
}

/// An item for each line, in its place, whatever stands in it.
#[test]
fn lines() {
    let whole = "04AA5004BCE1CEA905050604F0A1030469";
    let small = whole.to_lowercase();
    let cr = format!("{whole}\r");
    let long = "00".repeat(LIMIT + 1);
    let lines = [whole, "", &small, "0", "0g", &cr, "+4", "é", &long, "04AA50", whole];
    let level = Level { pressure: 70_000, temperature: Some(-53), depression: None };
    let good = Ok(Ascent { station: 10_410, launch: 1_700_000_060, levels: vec![level] });
    let missing = Err(RefusedFrame::Bytes(Refusal::MissingField));
    let hex = Err(RefusedFrame::Hex);
    let too_long = Err(RefusedFrame::Bytes(Refusal::TooLong));
    let wanted = [
        good.clone(),
        missing.clone(),
        good.clone(),
        hex.clone(),
        hex.clone(),
        hex.clone(),
        hex.clone(),
        hex,
        too_long,
        missing,
        good,
    ];
    assert_eq!(soundings(lines).collect::<Vec<_>>(), wanted);
    // bytes and owned lines are taken, too
    assert_eq!(soundings(lines.map(str::as_bytes)).collect::<Vec<_>>(), wanted);
    assert_eq!(soundings(lines.map(str::to_string)).collect::<Vec<_>>(), wanted);
    // the second edition refuses the same lines, and has the same levels
    for (first, second) in wanted.iter().zip(graded_soundings(lines, Grade::NotCanonical)) {
        let second = second.map(|ascent| {
            let levels = ascent.levels.into_iter().map(|windy| windy.level).collect();
            Ascent { station: ascent.station, launch: ascent.launch, levels }
        });
        assert_eq!(&second, first);
    }
}

/// The least grade that is taken, and what each of three soundings is then.
#[test]
fn grades() {
    let text = include_str!("../../../examples/winds.hex");
    let reached = |least| -> Vec<Result<Grade, RefusedFrame>> {
        let read = graded_soundings(text.split_terminator('\n'), least);
        read.map(|item| item.map(|ascent| ascent.grade)).collect()
    };
    use Grade::*;
    let not_canonical = Err(RefusedFrame::Bytes(Refusal::NotCanonical));
    let unknown = Err(RefusedFrame::Bytes(Refusal::UnknownField));
    assert_eq!(reached(Canonical), [Ok(Canonical), not_canonical, unknown]);
    assert_eq!(reached(HasExtensions), [Ok(Canonical), not_canonical, Ok(HasExtensions)]);
    assert_eq!(reached(NotCanonical), [Ok(Canonical), Ok(NotCanonical), Ok(HasExtensions)]);
}

/// The room that is found is enough: as many levels as a sounding of its length can have.
#[test]
fn densest_sounding() {
    let mut s = vec![0x04, 0x01, 0x04, 0x00];
    s.extend([0x05, 0x02, 0x04, 0x01]);
    s.extend([0x01, 0x02, 0x04, 0x01].repeat(5_000));
    assert_eq!(sounding(&s).unwrap().levels.len(), 5_001);
    assert_eq!(graded(&s, Grade::Canonical).unwrap().levels.len(), 5_001);
}
