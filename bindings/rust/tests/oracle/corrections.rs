//! Corrections over an original: who supplies a tag, its part, and the result; of good messages, damaged ones, and one memory.
use super::*;
use told::{expected_places, expected_result, expected_supplier};

impl Against {
    /// A slice as the original and as the correction of some other, and under itself.
    pub fn corrected(&mut self, s: &[u8]) {
        let mut other = match self.chance.below(4) {
            0 => s.to_vec(),
            1 => self.chance.slice(),
            _ => self.chance.message(),
        };
        if self.chance.below(4) == 0 {
            self.chance.damage(&mut other);
        }
        let good = self.chance.message();
        let pairs: [(&[u8], &[u8]); 4] = [(s, &other), (&other, s), (&good, &other), (s, s)];
        if s.len() > 10_000 {
            let (original, correction) = self.chance.one(&[pairs[0], pairs[0], pairs[1], pairs[3]]);
            return self.pair(original, correction); // of a long one, one pair is enough
        }
        for (original, correction) in pairs {
            self.pair(original, correction);
        }
    }

    /// A result about as long as a message may be, one of the two being nearly that.
    pub fn long_result(&mut self) {
        let (other, tag) = (self.chance.message(), self.chance.rise());
        let length = LIMIT - 4 - other.len() - self.chance.below(4) + self.chance.below(8);
        let long = Blob::write(&vec![0; length], &[[tag.into(), 1, 0, length as u64]]).0;
        self.pair(&long, &other);
        self.pair(&other, &long);
    }

    /// All of it for one original and one correction.
    pub fn pair(&mut self, original: &[u8], correction: &[u8]) {
        let read = expected_places(original)
            .and_then(|original| Ok((original, expected_places(correction)?)));
        let mut tags = vec![0, 1, self.chance.rise()];
        if let Ok(((_, old), (_, new))) = &read {
            for places in [old, new].into_iter().filter(|places| !places.is_empty()) {
                let tag = places[self.chance.below(places.len())].0;
                tags.extend([tag, tag.wrapping_add(1)]);
            }
        }
        for tag in tags {
            let found = read.as_ref().map_err(|&refusal| refusal);
            let found = found.and_then(|((_, old), (_, new))| expected_supplier(old, new, tag));
            let supplier = found.map(|found| found.map(|(supplier, _)| supplier));
            let ours = corrected_by(original, correction, tag);
            same!(self, ours, supplier, original, correction, tag);
            let part = match found {
                Ok(Some((Supplier::Original, (_, start, length)))) => &original[start..][..length],
                Ok(Some((_, (_, start, length)))) => &correction[start..][..length],
                _ => &original[..0],
            };
            let ours = corrected_part(original, correction, tag);
            let (ours, theirs) = ((ours.as_ptr(), ours.len()), (part.as_ptr(), part.len()));
            same!(self, ours, theirs, original, correction, tag);
        }
        let result = read
            .and_then(|((old, _), (new, _))| expected_result((original, old), (correction, new)));
        self.written(original, correction, &result);
    }

    /// The result in buffers of some lengths, by the call that finds its room, and applied again.
    fn written(&mut self, original: &[u8], correction: &[u8], result: &Result<Vec<u8>, Refusal>) {
        let (need, most) = (result.as_ref().map_or(3, Vec::len), original.len() + correction.len());
        let any = self.chance.below(most.min(LIMIT) + 2);
        for room in [need, need.saturating_sub(1), self.chance.one(&[0, need + 3, most, any])] {
            let mut buf = vec![0xA5; room];
            let mut expected = buf.clone();
            let theirs = result.as_ref().map_err(|&refusal| refusal).and_then(|bytes| {
                expected.get_mut(..need).ok_or(Refusal::NoRoom)?.copy_from_slice(bytes);
                Ok(need)
            });
            let ours = write_corrected(original, correction, &mut buf);
            same!(self, (ours, buf), (theirs, expected), original, correction, room);
        }
        same!(self, &corrected(original, correction), result, original, correction);
        if let Ok(bytes) = result {
            assert!(need <= most, "{original:02X?} {correction:02X?}");
            same!(self, &corrected(bytes, correction), result, original, correction);
        }
    }
}
