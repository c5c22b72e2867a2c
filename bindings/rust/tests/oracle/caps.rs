//! A message under a cap beside its bytes cut out (docs/CAPS.md): the same fields, every place moved by the start; refused,
//! one of five pairs of names.
use super::*;

/// The numbers that both may be refused with, the cap's first.
pub const PAIRS: [(u64, u64); 5] = [(1, 1), (2, 2), (3, 3), (2, 1), (3, 1)];

/// Bytes that are refused with other names before their last byte than at it: a length and a number of 2^64 or more, a
/// length behind a key of two bytes, a key of 2^64 or more, a key whose tag is too large.
const TAILS: [&[u8]; 5] = [
    b"\x01\xFF\xFF\xFF\xFF\xFF\xFF\xFF\xFF\xFF",
    b"\x00\xFF\xFF\xFF\xFF\xFF\xFF\xFF\xFF\xFF",
    b"\x81\x00\xFF\xFF\xFF\xFF\xFF\xFF\xFF\xFF\xFF",
    b"\xFF\xFF\xFF\xFF\xFF\xFF\xFF\xFF\xFF",
    b"\x80\xFF\xFE\xFE\x3E",
];

/// How often each pair was met.
pub fn tell(met: [u64; 5]) {
    for ((cap, cut), times) in PAIRS.iter().zip(met) {
        println!("cap {cap}, cut {cut}: {times} times");
    }
}

/// The examples of docs/CAPS.md: bytes, from 0 up to an end.
#[test]
fn the_pairs() {
    let mut against = Against::new(0);
    let examples: [(&[u8], usize); 6] = [
        (b"\x00", 1),
        (b"\x80\xFF\xFE\xFE\xFE\xFE\xFE\xFE\xFE", 9),
        (b"\x80\xFF\xFE\xFE\x3E", 5),
        (TAILS[0], 1),
        (TAILS[2], 1),
        (TAILS[4], 1),
    ];
    for (s, end) in examples {
        against.cap_and_cut(s, 0, end);
    }
    assert_eq!(against.met, [1, 1, 1, 2, 1]);
}

impl Against {
    /// A message among other bytes, read up to ends in it and behind it.
    pub fn relayed(&mut self) {
        let start = self.chance.below(4);
        let (tail, rest) = (self.chance.one(&TAILS), self.chance.below(12));
        let mut s = self.chance.bytes(start);
        s.extend(self.chance.message());
        s.extend(tail);
        s.extend(self.chance.bytes(rest));
        if self.chance.below(4) == 0 {
            self.chance.damage(&mut s);
        }
        for _ in 0..4 {
            let end = self.chance.below(s.len() + 1);
            self.cap_and_cut(&s, start, end);
        }
    }

    /// Both reads of one message, where the start is not past the end, with room for any fields.
    pub fn cap_and_cut(&mut self, s: &[u8], start: usize, end: usize) {
        let Some(cut) = s.get(start..end).filter(|_| s.len() <= LIMIT) else { return };
        let words = RECORD_WORDS * (cut.len() / 2);
        let (mut table, mut moved) = (vec![FILL; words], vec![FILL; words]);
        let cap = read_message(s, start, end, &mut table);
        let bare = read_message(cut, 0, cut.len(), &mut moved);
        let count = bare.map_or(0, |read| read.count);
        for record in moved.chunks_exact_mut(RECORD_WORDS).take(count) {
            if let [_, kind, value, _, key] = record {
                *value += if *kind == 1 { start as u64 } else { 0 };
                *key += start as u64;
            }
        }
        let ours = cap.map(|read| (read.place, read.count)).map_err(|no| (no.place, no.count));
        let theirs = bare
            .map(|read| (start + read.place, read.count))
            .map_err(|no| (start + no.place, no.count));
        same!(self, (ours, table), (theirs, moved), s, start, end);
        if let (Err(cap), Err(bare)) = (cap, bare) {
            let pair = (cap.refusal.number(), bare.refusal.number());
            let known = PAIRS.iter().position(|known| *known == pair);
            let known = known.unwrap_or_else(|| panic!("{pair:?} of {s:02X?}, {start} to {end}"));
            self.met[known] += 1;
        }
    }
}
