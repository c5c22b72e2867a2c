//! Ours against the Rust that it was translated from (oracle/), in one process, on inputs by chance: short and long,
//! good and damaged, under caps, with tables and buffers of any size. Every call's answer is compared, and all that was
//! lent to it.
//!
//! ```sh
//! cargo test --test oracle                                             # ten million answers
//! cargo test --test oracle -- --ignored --nocapture on_and_on          # until it is stopped
//! CAPGAUZE_SEED=7 cargo test --test oracle                             # the inputs of a seed again
//! ```
//!
//! What the Rust has no word for is worked out from docs/FORMAT.md, here and in told.rs.
mod chance;
mod told;

use bilrost::Blob;
use capgauze::*;
use chance::Chance;
use std::sync::atomic::{AtomicU64, Ordering};
use std::time::{Instant, SystemTime, UNIX_EPOCH};
use told::{
    expected_read, fours, good, key_fault, keyed, limited, looked, named, skip_fault, step_fault,
    tested, value, value_fault, Row,
};

const FILL: u64 = 0xA5A5_A5A5_A5A5_A5A5;
const TYPES: [WireType; 4] =
    [WireType::Varint, WireType::LengthDelimited, WireType::ThirtyTwoBit, WireType::SixtyFourBit];

/// Where a lookup of the tag may stop: the keys up to there, and the place of the first key above it or the end.
fn stop(s: &[u8], tag: u32) -> Result<(usize, usize), Refusal> {
    let (mut at, mut last, mut keys) = (0, 0, 0);
    while at < s.len() {
        keys += 1;
        let (next_tag, kind, value) = Blob::key(s, at, s.len(), last).map_err(named)?;
        if next_tag > tag {
            break;
        }
        at = Blob::value(s, value, s.len(), kind).map_err(named)?.1;
        last = next_tag;
    }
    Ok((keys, at))
}

#[test]
fn ten_million() {
    run(10_000_000);
}

#[test]
#[ignore = "goes on until it is stopped"]
fn on_and_on() {
    run(u64::MAX);
}

/// Every slice of up to three bytes of nine, at every place and end, one past the slice included.
#[test]
fn short_ones() {
    const LETTERS: [u8; 9] = [0x00, 0x01, 0x02, 0x03, 0x04, 0x7F, 0x80, 0xFE, 0xFF];
    let mut against = Against::new(0);
    let mut slices = vec![Vec::new()];
    for _ in 0..4 {
        for s in &slices {
            for at in 0..=s.len() + 1 {
                for end in 0..=s.len() + 1 {
                    against.parts(s, at, end);
                    against.cap_and_cut(s, at, end);
                    against.message(s, at, end, at + RECORD_WORDS * end);
                    for tag in 0..2 {
                        against.one_entry(s, [tag, at as u64, end as u64]);
                    }
                }
            }
            against.index(s);
            against.run(s);
        }
        let longer = |s: &Vec<u8>| LETTERS.map(|letter| [&s[..], &[letter]].concat());
        slices = slices.iter().flat_map(longer).collect();
    }
    println!("{} answers, none differs", against.answers);
}

/// Three numbers of every length behind one another, whole and cut behind every byte.
#[test]
fn numbers_of_every_length() {
    let mut against = Against::new(0);
    for [more, last, ninth] in [[0x80, 0x00, 0x00], [0xFF, 0x7F, 0xFE], [0xFF, 0x7F, 0xFF]] {
        let number = |n| [vec![more; n], vec![if n < 8 { last } else { ninth }]].concat();
        for lengths in 0..9 * 9 * 9 {
            let run = [lengths / 81, lengths / 9 % 9, lengths % 9].map(number).concat();
            for cut in 0..=run.len() {
                against.run_as(&run[..cut], 0);
            }
        }
    }
    println!("{} answers, none differs", against.answers);
}

/// Every slice of up to four bytes of four under every one of them.
#[test]
fn short_corrections() {
    const LETTERS: [u8; 4] = [0x00, 0x01, 0x04, 0x80];
    let mut against = Against::new(0);
    let mut slices = vec![Vec::new()];
    for shorter in 0..1 + 4 + 16 + 64 {
        slices.extend(LETTERS.map(|letter| [&slices[shorter][..], &[letter]].concat()));
    }
    for original in &slices {
        for correction in &slices {
            against.pair(original, correction);
        }
    }
    println!("{} answers, none differs", against.answers);
}

/// Working copies of some hundred edits each, until there are a million.
#[test]
fn a_million_edits() {
    let seed = seed();
    println!("CAPGAUZE_SEED={seed} for edits");
    let mut against = Against::new(seed);
    while against.edits < 1_000_000 {
        let edits = against.chance.below(400);
        against.edited(edits);
    }
    println!("{} edits, {} answers, none differs", against.edits, against.answers);
}

fn seed() -> u64 {
    match std::env::var("CAPGAUZE_SEED") {
        Ok(seed) => seed.parse().expect("a seed is a number"),
        Err(_) => SystemTime::now().duration_since(UNIX_EPOCH).unwrap().as_nanos() as u64,
    }
}

/// Compares until there are so many answers, on each processor its own inputs.
fn run(wanted: u64) {
    let seed = seed();
    let threads = std::thread::available_parallelism().map_or(1, |n| n.get() as u64);
    println!("CAPGAUZE_SEED={seed} on {threads} threads");
    let (answers, begun) = (AtomicU64::new(0), Instant::now());
    let met: [AtomicU64; 5] = Default::default();
    std::thread::scope(|scope| {
        for thread in 0..threads {
            let (answers, met) = (&answers, &met);
            scope.spawn(move || {
                let mut against =
                    Against::new(seed.wrapping_add(thread.wrapping_mul(0xD1B5_4A32_D192_ED03)));
                while answers.load(Ordering::Relaxed) < wanted {
                    against.rounds(1_000);
                    let before = answers.fetch_add(against.answers, Ordering::Relaxed);
                    let after = before + std::mem::take(&mut against.answers);
                    if after / 100_000_000 > before / 100_000_000 {
                        println!("{after} answers, {} s", begun.elapsed().as_secs());
                    }
                }
                for (sum, times) in met.iter().zip(against.met) {
                    sum.fetch_add(times, Ordering::Relaxed);
                }
            });
        }
    });
    let (answers, met) = (answers.into_inner(), met.map(AtomicU64::into_inner));
    caps::tell(met);
    assert!(met.iter().all(|&times| times > 0), "a pair of a cap and a cut was not met");
    println!("{answers} answers, none differs, {} s", begun.elapsed().as_secs());
}

// ---- The comparison ----

struct Against {
    chance: Chance,
    answers: u64,
    edits: u64,
    met: [u64; 5], // pairs of refusals of a cap and a cut
}

/// Stops with the call's words where an answer differs.
macro_rules! same {
    ($self:ident, $ours:expr, $theirs:expr, $($word:expr),*) => {{
        let (ours, theirs) = ($ours, $theirs);
        $self.answers += 1;
        if ours != theirs {
            let words: &[&dyn std::fmt::Debug] = &[$(&$word),*];
            panic!("{}\n of {words:02X?}\n is {ours:?}\n and not {theirs:?}", stringify!($ours));
        }
    }};
}

mod caps;
mod corrections;
mod edits;
mod indexes;
mod runs;
mod soundings;

impl Against {
    fn new(seed: u64) -> Against {
        Against { chance: Chance(seed), answers: 0, edits: 0, met: [0; 5] }
    }

    fn rounds(&mut self, count: usize) {
        for round in 0..count {
            self.numbers();
            self.table();
            self.packed();
            self.copies();
            self.relayed();
            self.soundings();
            if round == 0 {
                self.long_run();
            }
            let s = if round == 0 { self.long_ones() } else { self.chance.slice() };
            self.whole(&s);
            for _ in 0..3 {
                let (at, end) = (self.chance.place(s.len()), self.chance.place(s.len()));
                self.parts(&s, at, end);
                let words = self.chance.below(40);
                self.message(&s, at, end, words);
            }
        }
    }

    /// A long slice, on whose way a long payload is shown, a long output written and a long result.
    fn long_ones(&mut self) -> Vec<u8> {
        let s = self.chance.long_slice();
        let (start, cut) = (self.chance.below(3), self.chance.one(&[0, 1, 5, 60_000]));
        let length = s.len().saturating_sub(start + cut) as u64;
        let key = self.chance.one(&[NO_KEY, 0, s.len() as u64]);
        self.payload(&s, [0, 1, start as u64, length, key]);

        let part = &s[..self.chance.one(&[1_000, 2_000]).min(s.len())];
        let times = LIMIT / (part.len() + 3);
        let mut table = [0, 1, 0, part.len() as u64, NO_KEY].repeat(times);
        let spare = LIMIT - times * (part.len() + 3);
        let last = (spare + 1).saturating_sub(self.chance.below(6)) as u64;
        table.extend([0, 1, 0, last.min(part.len() as u64), NO_KEY]);
        let room = self.chance.one(&[0, LIMIT - 1, LIMIT, LIMIT + 1]);
        self.write(part, &table, times + 1, room);
        self.long_result();
        s
    }

    fn numbers(&mut self) {
        let v = self.chance.number();
        let (bytes, prepended, len) = Blob::write_varint(v);
        assert_eq!(bytes, prepended);
        same!(self, encoded_len_varint(v), len, v);
        same!(self, i64_to_unsigned(v as i64), Blob::to_unsigned(v as i64), v);
        same!(self, u64_to_signed(v), Blob::to_signed(v), v);
        self.put(Ok(&bytes), |buf| encode_varint(v, buf), false, &v);
        self.put(Ok(&bytes), |buf| prepend_varint(v, buf), true, &v);

        let (last, tag, kind) = (self.chance.rise(), self.chance.rise(), self.chance.below(4));
        let wire_type = TYPES[kind];
        let written = if tag < last {
            (Vec::new(), Vec::new(), 0)
        } else {
            Blob::write_key(last, tag, kind as u8)
        };
        assert_eq!(written.0, written.1);
        let bytes = if tag < last { Err(Refusal::OutOfOrder) } else { Ok(&written.0[..]) };
        same!(self, key_len(last, tag), bytes.map(|_| written.2), last, tag);
        self.put(bytes, |buf| encode_key(last, tag, wire_type, buf), false, &(last, tag, kind));
        self.put(bytes, |buf| prepend_key(last, tag, wire_type, buf), true, &(last, tag, kind));
    }

    /// One part put at a buffer's front or end.
    fn put(
        &mut self,
        bytes: Result<&[u8], Refusal>,
        by: impl Fn(&mut [u8]) -> Result<usize, Refusal>,
        back: bool,
        words: &dyn std::fmt::Debug,
    ) {
        let mut buf = vec![0xA5; self.chance.below(12)];
        let mut expected = buf.clone();
        let answer = bytes.and_then(|bytes| {
            let spare = buf.len().checked_sub(bytes.len()).ok_or(Refusal::NoRoom)?;
            let start = if back { spare } else { 0 };
            expected[start..][..bytes.len()].copy_from_slice(bytes);
            Ok(bytes.len())
        });
        same!(self, (by(&mut buf), buf), (answer, expected), words);
    }

    /// The leaf readers at a place under an end.
    fn parts(&mut self, s: &[u8], at: usize, end: usize) {
        let both = &[at, end];
        let decoded = |(value, next)| Decoded { value, next };
        // a refusal that is not met in the bytes has no fault
        let met = |refusal, fault: &dyn Fn() -> Fault| match refusal {
            Refusal::TooLong | Refusal::BadCap => Fault::default(),
            _ => fault(),
        };
        let varint = |refusal| {
            let fault = met(refusal, &|| looked(s, at));
            RefusedAt { refusal, reading: Reading::Varint, place: at, fault }
        };
        let theirs = limited(s, &[at], || Blob::varint(s, at)).map(decoded).map_err(varint);
        same!(self, decode_varint(s, at), theirs, s, at);
        let theirs =
            limited(s, both, || Blob::capped_varint(s, at, end)).map(decoded).map_err(varint);
        same!(self, decode_varint_capped(s, at, end), theirs, s, at, end);

        let last = self.chance.rise();
        let key = |refusal| {
            let fault = met(refusal, &|| key_fault(s, at, refusal));
            RefusedAfter { refusal, reading: Reading::Key, place: at, last, fault }
        };
        let theirs = limited(s, both, || Blob::key(s, at, end, last)).map_err(key);
        let theirs = theirs.map(|(tag, kind, next)| {
            let wire_type = TYPES[kind as usize];
            Decoded { value: Key { tag, wire_type }, next }
        });
        same!(self, decode_key(s, at, end, last), theirs, s, at, end, last);

        let step = |refusal| {
            let fault = met(refusal, &|| step_fault(s, at, end, last));
            RefusedAfter { refusal, reading: Reading::Field, place: at, last, fault }
        };
        let theirs = limited(s, both, || Blob::step(s, at, end, last)).map_err(step);
        let theirs = theirs.map(|found| {
            found.map(|([tag, kind, number, length], next)| {
                let value = value(kind, number, length);
                Decoded { value: Field { tag: tag as u32, value }, next }
            })
        });
        same!(self, step_at(s, at, end, last), theirs, s, at, end, last);

        for (kind, wire_type) in TYPES.into_iter().enumerate() {
            let refused = |refusal| {
                let fault = met(refusal, &|| value_fault(s, at, kind as u8));
                RefusedAt { refusal, reading: Reading::Value, place: at, fault }
            };
            let theirs = limited(s, both, || Blob::value(s, at, end, kind as u8)).map_err(refused);
            let theirs = theirs.map(|([kind, number, length], next)| Decoded {
                value: value(kind, number, length),
                next,
            });
            same!(self, decode_value(s, at, end, wire_type), theirs, s, at, end, kind);
            let refused = |refusal| {
                let fault = met(refusal, &|| skip_fault(s, at, end, kind as u8));
                RefusedAt { refusal, reading: Reading::Skipped, place: at, fault }
            };
            let theirs = limited(s, both, || Blob::skip(s, at, end, kind as u8)).map_err(refused);
            same!(self, skip_field(s, at, end, wire_type), theirs, s, at, end, kind);
        }
    }

    /// A read under a cap into a table of some words.
    fn message(&mut self, s: &[u8], start: usize, end: usize, words: usize) {
        let mut table = vec![FILL; words];
        let (answer, records) = expected_read(s, start, end, words / RECORD_WORDS);
        let mut expected = records.concat();
        expected.resize(words, FILL);
        same!(
            self,
            (read_message(s, start, end, &mut table), table),
            (answer, expected),
            s,
            start,
            end,
            words
        );
    }

    /// A whole message: read, picked, its payloads read, and written again.
    fn whole(&mut self, s: &[u8]) {
        let spare = self.chance.below(4);
        self.message(s, 0, s.len(), RECORD_WORDS * (s.len() / 2) + spare);
        self.index(s);
        self.corrected(s);
        if s.len() > LIMIT {
            return;
        }
        if self.chance.below(16) == 0 {
            assert!(Blob::copies_agree(s, 0, s.len()), "{s:02X?}");
        }
        let read = Blob::read(s, 0, s.len());
        let records = expected_read(s, 0, s.len(), s.len()).1;
        let tag = match records.len() {
            0 => self.chance.rise(),
            len => records[self.chance.below(len)][0] as u32,
        };
        let index = Blob::index(s, tag).map_err(named);
        let at = |values: &[[u64; 3]], number: usize| {
            values.get(number).map(|&[kind, number, length]| value(kind, number, length))
        };
        let only = index.clone().and_then(|values| match values.len() {
            0 | 1 => Ok(at(&values, 0)),
            _ => Err(Refusal::Repeated),
        });
        same!(self, pick(s, tag), only, s, tag);
        let early = stop(s, tag).and_then(|(keys, place)| {
            let values = Blob::index(&s[..place], tag).map_err(named)?;
            if values.len() > 1 {
                Err(Refusal::Repeated)
            } else {
                Ok((keys, at(&values, 0)))
            }
        });
        same!(self, pick_early(s, tag), early, s, tag);
        let last = index.as_ref().map_or(0, Vec::len);
        for number in [0, last.saturating_sub(1), last] {
            let theirs = index.clone().map(|values| (values.len(), at(&values, number)));
            same!(self, pick_at(s, tag, number), theirs, s, tag, number);
        }

        let fields: Result<Vec<Field>, RefusedAfter> = fields(s).collect();
        let theirs =
            records.iter().map(|row| Record::at(row, 0).unwrap().field().unwrap()).collect();
        same!(self, fields.ok(), read.is_ok().then_some(theirs), s);
        if read.is_err() {
            return;
        }
        for row in records.iter().take(4) {
            self.payload(s, *row);
        }
        let parts: Vec<&[u8]> =
            records.iter().filter_map(|row| field_bytes(s, Record::at(row, 0)?)).collect();
        same!(self, parts.concat(), s, s);
        self.write(s, &records.concat(), records.len(), s.len());
    }

    fn payload(&mut self, s: &[u8], row: Row) {
        let record = Record::at(&row, 0).unwrap();
        let part = match row {
            [_, 1, start, length, _] if good(s, row) => &s[start as usize..][..length as usize],
            _ => &s[..0],
        };
        let ours = payload_of(s, record);
        same!(self, (ours.as_ptr(), ours.len()), (part.as_ptr(), part.len()), s, row);
        let words = self.chance.below(20);
        let (answer, records) = expected_read(part, 0, part.len(), words / RECORD_WORDS);
        let mut table = vec![FILL; words];
        let mut expected = records.concat();
        expected.resize(words, FILL);
        same!(
            self,
            (read_payload(s, record, &mut table), table),
            (answer, expected),
            s,
            row,
            words
        );
    }

    /// A table by chance, good or spoilt, written and inserted into.
    fn table(&mut self) {
        let len = self.chance.below(30);
        let source = self.chance.bytes(len);
        let count = self.chance.below(6);
        let mut records = self.chance.records(&source, count + 1);
        let mut new = records.swap_remove(self.chance.below(count + 1));
        if self.chance.below(8) == 0 {
            new[self.chance.below(RECORD_WORDS)] = self.chance.number();
        }
        if self.chance.below(4) == 0 && count > 0 {
            let (i, word) = (self.chance.below(count), self.chance.below(RECORD_WORDS));
            let (number, end) = (self.chance.number(), len as u64);
            let more = records[i][word].wrapping_add(1);
            records[i][word] = self.chance.one(&[number, 0, end, 1 << 32, u64::MAX, more]);
        } else if self.chance.below(8) != 0 {
            records.sort_by_key(|record| record[0]);
        }
        let mut table = records.concat();
        table.resize(RECORD_WORDS * count + self.chance.below(9), FILL);
        let any = self.chance.bits() as usize;
        let count = self.chance.one(&[
            count,
            count,
            count,
            count,
            count,
            count + 1,
            any,
            (1 << 62) + count,
        ]);
        let good = tested(&source, &table, count).unwrap_or_default();
        let len = Blob::write(&source, &fours(&good)).2;
        let room = self.chance.one(&[len, len, len + 1, len + 9, len.saturating_sub(1), 0]);
        self.write(&source, &table, count, room);
        self.insertion(&source, table, count, new);
        self.payload(&source, new);
    }

    /// Both writers, into a buffer of some length and into none.
    fn write(&mut self, source: &[u8], table: &[u64], count: usize, room: usize) {
        let refused = |(refusal, index)| RefusedWrite { refusal, index, needed: 0 };
        let bytes = tested(source, table, count).and_then(|records| {
            let (forward, prepended, len) = Blob::write(source, &fours(&records));
            assert!(forward == prepended && forward.len() == len);
            (len <= LIMIT).then_some(forward).ok_or((Refusal::TooLong, 0))
        });
        for (back, room) in [(false, room), (true, room), (false, 0), (true, 0)] {
            let mut buf = vec![0xA5; room];
            let mut expected = buf.clone();
            let theirs = match &bytes {
                Err(told) => Err(refused(*told)),
                Ok(bytes) if bytes.len() > room => {
                    Err(RefusedWrite { refusal: Refusal::NoRoom, index: 0, needed: bytes.len() })
                }
                Ok(bytes) => {
                    let (start, length) = (if back { room - bytes.len() } else { 0 }, bytes.len());
                    expected[start..][..length].copy_from_slice(bytes);
                    Ok(Written { start, length })
                }
            };
            let write = if back { prepend_message } else { encode_message };
            let ours = write(source, table, count, &mut buf);
            same!(self, (ours, buf), (theirs, expected), source, table, count, room, back);
        }
    }

    fn insertion(&mut self, source: &[u8], mut table: Vec<u64>, count: usize, new: Row) {
        let given = Record::at(&new, 0).unwrap().into();
        let new = keyed(told::four(new), NO_KEY);
        let mut expected = table.clone();
        let answer = tested(source, &table, count).and_then(|records| {
            if !good(source, new) {
                return Err((Refusal::BadRecord, count));
            }
            if count == table.len() / RECORD_WORDS {
                return Err((Refusal::NoRoom, 0));
            }
            // where the Rust's insertion puts it is seen in what it writes
            let inserted = Blob::write(source, &fours(&[&records[..], &[new]].concat())).0;
            let at = records.iter().filter(|record| record[0] <= new[0]).count();
            let after = [&records[..at], &[new], &records[at..]].concat();
            assert_eq!(Blob::write(source, &fours(&after)).0, inserted);
            expected[..RECORD_WORDS * after.len()].copy_from_slice(&after.concat());
            Ok(count + 1)
        });
        let answer = answer.map_err(|(refusal, index)| RefusedInsert { refusal, index });
        let before = table.clone();
        let ours = insert(source, &mut table, count, given);
        same!(self, (ours, table), (answer, expected), source, before, count, new);
    }
}
