//! Packed runs: counted, looked into, read and written; made by the Rust, damaged, and of any bytes.
use super::*;
use told::{expected_run, fours, tested_run, Row};

impl Against {
    /// Records of one type, good or spoilt, as a run; and that run, good or damaged, as each type.
    pub fn packed(&mut self) {
        let (len, kind) = (self.chance.below(30), self.chance.below(4));
        let source = self.chance.bytes(len);
        let count = self.chance.one(&[0, 1, 2, 3, 5, 9, 40]);
        let mut records: Vec<_> =
            (0..count).map(|_| self.chance.record(&source, 0, kind)).collect();
        let mut run = Blob::packed(&source, &fours(&records));
        let need = run.len();
        while self.chance.below(2) == 0 {
            self.chance.damage(&mut run);
        }
        self.run(&run);

        if self.chance.below(3) == 0 && count > 0 {
            let (i, word, other) =
                (self.chance.below(count), self.chance.below(RECORD_WORDS), self.chance.below(4));
            let (number, more) = (self.chance.number(), records[i][word].wrapping_add(1));
            match self.chance.below(3) {
                0 => records[i] = self.chance.record(&source, 0, other),
                _ => records[i][word] = self.chance.one(&[number, 0, 1, 1 << 32, u64::MAX, more]),
            }
        }
        let mut table = records.concat();
        table.resize(RECORD_WORDS * count + self.chance.below(9), FILL);
        let any = self.chance.bits() as usize;
        let count =
            self.chance.one(&[count, count, count, count, count + 1, any, (1 << 62) + count]);
        let room = self.chance.one(&[need, need, need + 1, need + 9, need.saturating_sub(1), 0]);
        let kind = self.chance.one(&[kind, kind, kind, other_than(kind)]);
        self.write_as(&source, &table, count, kind, room);
    }

    /// A long run, made by the Rust or of any bytes, up to the limit and one byte over; and a long output.
    pub fn long_run(&mut self) {
        let (source, kind) = (self.chance.bytes(300), self.chance.below(4));
        let about = self.chance.one(&[65_535, 65_535, 65_535, LIMIT]);
        let records: Vec<_> =
            (0..1 + self.chance.below(40)).map(|_| self.chance.record(&source, 0, kind)).collect();
        let unit = Blob::packed(&source, &fours(&records));
        let len = about + 2 - self.chance.one(&[0, 1, 2, 3, 4, 5, 6, 7, 8, 9, 1_000]);
        let mut run = unit.repeat(len / unit.len());
        match self.chance.below(4) {
            0 => run.extend(&unit[..len % unit.len()]),
            1 => run.resize(len, 0),
            2 => self.chance.damage(&mut run),
            _ => {}
        }
        self.run_as(&run, kind);

        let times = LIMIT / unit.len() + self.chance.below(2);
        let table = records.concat().repeat(times);
        let room = self.chance.one(&[0, LIMIT - 1, LIMIT, times * unit.len()]);
        self.write_as(&source, &table, times * records.len(), kind, room);
    }

    /// A slice as a run of each type.
    pub fn run(&mut self, s: &[u8]) {
        for kind in 0..4 {
            self.run_as(s, kind);
        }
    }

    pub fn run_as(&mut self, s: &[u8], kind: usize) {
        let wire_type = TYPES[kind];
        let records = expected_run(s, kind as u8);
        let count = records.as_ref().map(Vec::len).map_err(|&refusal| refusal);
        same!(self, run_count(s, wire_type), count, s, kind);
        let most = count.unwrap_or(1);
        let any = self.chance.bits() as usize;
        let inside = self.chance.below(most + 1);
        for number in [0, inside, most.saturating_sub(1), most, any] {
            let theirs = records.as_ref().map_err(|&refusal| refusal).map(|records| {
                let of = |&[_, kind, number, length, _]: &Row| value(kind, number, length);
                records.get(number).map(of)
            });
            same!(self, run_value(s, wire_type, number), theirs, s, kind, number);
        }
        let spare = self.chance.below(4);
        let enough = RECORD_WORDS * most;
        for words in [enough + spare, enough.saturating_sub(1 + spare)] {
            let mut table = vec![FILL; words];
            let mut expected = table.clone();
            let theirs = records.as_ref().map_err(|&refusal| refusal).and_then(|records| {
                let room =
                    expected.get_mut(..RECORD_WORDS * records.len()).ok_or(Refusal::NoRoom)?;
                room.copy_from_slice(&records.concat());
                Ok(records.len())
            });
            let ours = read_run(s, wire_type, &mut table);
            same!(self, (ours, &table), (theirs, &expected), s, kind, words);
            if let Ok(count) = ours {
                self.write_as(s, &table, count, kind, s.len());
            }
        }
        self.unpacked(s, kind, records);
    }

    /// All values by one call, and back.
    fn unpacked(&mut self, s: &[u8], kind: usize, records: Result<Vec<Row>, Refusal>) {
        let numbers =
            records.clone().map(|records| records.iter().map(|row| row[2]).collect::<Vec<_>>());
        let (ours, back) = match kind {
            0 => {
                let ours = unpack_varints(s);
                (ours.clone(), ours.ok().map(|numbers| pack_varints(&numbers)))
            }
            1 => {
                let ours = unpack_payloads(s);
                let place =
                    |part: &&[u8]| (part.as_ptr() as u64 - s.as_ptr() as u64, part.len() as u64);
                let places = |parts: &Vec<&[u8]>| parts.iter().map(place).collect::<Vec<_>>();
                let theirs = records.iter().flatten().map(|row| (row[2], row[3])).collect();
                let theirs = records.as_ref().map(|_| theirs);
                same!(self, ours.as_ref().map(places), theirs, s);
                (numbers.clone(), ours.ok().map(|payloads| pack_payloads(&payloads)))
            }
            2 => {
                let ours = unpack_fixed32(s);
                let wide = ours.clone().map(|numbers| numbers.into_iter().map(u64::from).collect());
                (wide, ours.ok().map(|numbers| pack_fixed32(&numbers)))
            }
            _ => {
                let ours = unpack_fixed64(s);
                (ours.clone(), ours.ok().map(|numbers| pack_fixed64(&numbers)))
            }
        };
        let theirs = numbers.is_ok().then(|| Ok(s.to_vec()));
        same!(self, ours, numbers, s, kind);
        same!(self, back, theirs, s, kind);
    }

    /// A run of a table's records, into a buffer of some length and into none.
    fn write_as(&mut self, source: &[u8], table: &[u64], count: usize, kind: usize, room: usize) {
        let bytes = tested_run(source, table, count, kind as u8).and_then(|records| {
            let bytes = Blob::packed(source, &fours(&records));
            (bytes.len() <= LIMIT).then_some(bytes).ok_or((Refusal::TooLong, 0))
        });
        for room in [room, 0] {
            let mut buf = vec![0xA5; room];
            let mut expected = buf.clone();
            let theirs = match &bytes {
                Err((refusal, index)) => {
                    Err(RefusedWrite { refusal: *refusal, index: *index, needed: 0 })
                }
                Ok(bytes) if bytes.len() > room => {
                    Err(RefusedWrite { refusal: Refusal::NoRoom, index: 0, needed: bytes.len() })
                }
                Ok(bytes) => {
                    expected[..bytes.len()].copy_from_slice(bytes);
                    Ok(Written { start: 0, length: bytes.len() })
                }
            };
            let ours = write_run(source, table, count, TYPES[kind], &mut buf);
            same!(self, (ours, buf), (theirs, expected), source, table, count, kind, room);
        }
    }
}

fn other_than(kind: usize) -> usize {
    (kind + 1) % 4
}
