//! Inputs by chance.
use super::told::{fours, keyed, Row};
use bilrost::Blob;
use capgauze::{LIMIT, NO_KEY};

/// splitmix64
pub struct Chance(pub u64);

impl Chance {
    pub fn bits(&mut self) -> u64 {
        self.0 = self.0.wrapping_add(0x9E37_79B9_7F4A_7C15);
        let z = (self.0 ^ (self.0 >> 30)).wrapping_mul(0xBF58_476D_1CE4_E5B9);
        let z = (z ^ (z >> 27)).wrapping_mul(0x94D0_49BB_1331_11EB);
        z ^ (z >> 31)
    }

    pub fn below(&mut self, n: usize) -> usize {
        (self.bits() % n as u64) as usize
    }

    pub fn one<T: Copy>(&mut self, of: &[T]) -> T {
        of[self.below(of.len())]
    }

    pub fn bytes(&mut self, len: usize) -> Vec<u8> {
        (0..len).map(|_| self.bits() as u8).collect()
    }

    /// Of each length in bytes, often at its edge.
    pub fn number(&mut self) -> u64 {
        let limit = |len: usize| (1..=len).fold(0u64, |sum, i| sum.wrapping_add(1 << (7 * i)));
        let len = self.below(9);
        let (low, high) = (limit(len), if len == 8 { u64::MAX } else { limit(len + 1) - 1 });
        let inside = low + self.bits() % (high - low);
        self.one(&[low, high, inside, inside])
    }

    pub fn rise(&mut self) -> u32 {
        let any = self.bits() as u32;
        self.one(&[0, 0, 0, 0, 0, 0, 1, 1, 1, 2, 5, 31, 32, 4_127, 4_128, any >> 12, any])
    }

    /// Good records of a source, in rising order.
    pub fn records(&mut self, source: &[u8], count: usize) -> Vec<Row> {
        let mut tag = 0u32;
        let mut record = |_| {
            tag = tag.saturating_add(self.rise());
            let kind = self.below(4);
            self.record(source, tag, kind)
        };
        (0..count).map(&mut record).collect()
    }

    /// A good record of a source, with that tag and type, and with a place for its key or none.
    pub fn record(&mut self, source: &[u8], tag: u32, kind: usize) -> Row {
        let number = self.number();
        let start = self.below(source.len() + 1);
        let length = self.below(source.len() - start + 1) as u64;
        let four = match kind {
            0 => [tag.into(), 0, number, 0],
            1 => [tag.into(), 1, start as u64, length],
            2 => [tag.into(), 2, number as u32 as u64, 4],
            _ => [tag.into(), 3, number, 8],
        };
        let key = if start < source.len() { self.one(&[start as u64, NO_KEY]) } else { NO_KEY };
        keyed(four, key)
    }

    pub fn message(&mut self) -> Vec<u8> {
        let len = self.one(&[0, 1, 3, 20]);
        let source = self.bytes(len);
        let count = self.one(&[1, 2, 3, 5, 9]);
        Blob::write(&source, &fours(&self.records(&source, count))).0
    }

    pub fn damage(&mut self, s: &mut Vec<u8>) {
        if s.is_empty() {
            return;
        }
        let (at, to, any) = (self.below(s.len()), self.below(s.len()), self.bits() as u8);
        match self.below(6) {
            0 => s.truncate(at),
            1 => s[at] = self.one(&[0x00, 0x7F, 0x80, 0xFF, any]),
            2 => s[at] ^= 1 << self.below(8),
            3 => s.insert(at, any),
            4 => drop(s.remove(at)),
            _ => s.swap(at, to),
        }
    }

    pub fn slice(&mut self) -> Vec<u8> {
        const HOT: [u8; 12] = [0, 1, 2, 3, 4, 5, 0x7F, 0x80, 0x81, 0xFC, 0xFE, 0xFF];
        if self.below(3) == 0 {
            return (0..self.below(24)).map(|_| self.one(&HOT)).collect();
        }
        let mut s = self.message();
        while self.below(2) == 0 {
            self.damage(&mut s);
        }
        if self.below(4) == 0 {
            let before = self.below(4);
            s.splice(0..0, (0..before).map(|_| 0));
            s.extend(self.bytes(3));
        }
        s
    }

    /// Up to the limit and one byte over, and about 65,535 bytes: a message again and again, good or damaged at some place.
    pub fn long_slice(&mut self) -> Vec<u8> {
        let about = self.one(&[65_535, 65_535, 65_535, 65_535, LIMIT]);
        let len = if about == LIMIT { self.one(&[40, 2_000, 60_000]) } else { 40 };
        let source = self.bytes(len);
        let count = 1 + self.below(9);
        let mut records = self.records(&source, count);
        let most = self.one(&[0, 0, 1, 2]);
        records.iter_mut().for_each(|record| record[0] = record[0].min(most)); // they rise from unit to unit
        let unit = Blob::write(&source, &fours(&records)).0;
        let len = about + 2 - self.one(&[0, 1, 2, 3, 1_000, 60_000]);
        let mut s = unit.repeat(len / unit.len());
        match self.below(4) {
            0 => s.extend(&unit[..len % unit.len()]),
            1 => s.resize(len, 0),
            2 => self.damage(&mut s),
            _ => {}
        }
        s
    }

    /// Mostly inside the slice.
    pub fn place(&mut self, len: usize) -> usize {
        let any = self.bits() as usize;
        match self.below(64) {
            0 => len + 1,
            1 => any,
            2..=12 => len,
            13..=23 => 0,
            _ => self.below(len + 1),
        }
    }
}
