"""Corrections over an original."""
from array import array

import pytest

import capgauze
from helpers import refused


class TestCorrections:
    ORIGINAL = bytes.fromhex("000104020403")  # tags 0, 1 and 2
    CORRECTION = bytes.fromhex("04070008")  # tag 1 twice
    RESULT = bytes.fromhex("0001040700080403")

    def test_suppliers(self):
        by, original, correction = capgauze.corrected_by, self.ORIGINAL, self.CORRECTION
        assert [by(original, correction, tag) for tag in (0, 2, 3)] == [capgauze.ORIGINAL, capgauze.ORIGINAL, None]
        refused(11, by, original, correction, 1)
        assert by(correction, original, 1) == capgauze.CORRECTION  # twice in the original does not count
        refused(11, by, correction, b"", 1)
        assert by(b"", b"", 0) is None
        with pytest.raises(OverflowError):
            by(original, correction, 2**32)

    def test_parts(self):
        for kind in (bytes, bytearray, memoryview, lambda s: array("B", s)):
            part = capgauze.corrected_part(kind(self.ORIGINAL), kind(b"\x04\x80\0"), 1)
            assert bytes(part) == b"\x80\0"
        original, correction = bytearray.fromhex("0902C0DE"), bytearray.fromhex("0601020304")
        of_one, of_other = (capgauze.corrected_part(original, correction, tag) for tag in (2, 1))
        assert of_one.obj is original  # a part and no copy
        assert of_other.obj is correction
        original[2], correction[1] = 0xFF, 0xFF
        assert (bytes(of_one), bytes(of_other)) == (b"\xFF\xDE", b"\xFF\x02\x03\x04")
        for tag, other in ((0, correction), (2, original + original[:1]), (2, bytes.fromhex("09000100"))):
            none = capgauze.corrected_part(original, other, tag)  # absent, refused, repeated
            assert none.obj is original
            assert none.nbytes == 0
        empty = capgauze.corrected_part(original, b"\x09\0", 2)
        assert (empty.obj, empty.nbytes) == (b"\x09\0", 0)
        assert capgauze.corrected_by(original, b"\x09\0", 2) == capgauze.CORRECTION

    def test_written(self):
        for spare in (0, 2):
            buf = bytearray(b"\xA5" * (8 + spare))
            assert capgauze.write_corrected(self.ORIGINAL, self.CORRECTION, buf) == 8
            assert buf == self.RESULT + b"\xA5" * spare
        buf = bytearray(b"\xA5" * 7)
        refused(5, capgauze.write_corrected, self.ORIGINAL, self.CORRECTION, buf)
        refused(1, capgauze.write_corrected, self.ORIGINAL, self.CORRECTION[:-1], buf)
        assert buf == b"\xA5" * 7
        for kind in (bytes, bytearray, memoryview, lambda s: array("B", s)):
            assert capgauze.corrected(kind(self.ORIGINAL), kind(self.CORRECTION)) == self.RESULT
        for original, correction in ((self.RESULT, self.CORRECTION), (self.RESULT, b""), (b"", self.RESULT),
                                     (self.RESULT, self.RESULT)):
            assert capgauze.corrected(original, correction) == self.RESULT
        # keys are written anew where the two meet
        assert capgauze.corrected(b"\0\x01\x08\x02", b"\x04\x05") == b"\0\x01\x04\x05\x04\x02"

    def test_refusals_in_order(self):
        truncated, invalid = b"\0", b"\x80" + b"\xFF" * 8
        overflowed, long = bytes.fromhex("80FFFEFE3E00"), bytes(capgauze.LIMIT + 1)
        for number, bad in ((1, truncated), (1, bytes(5)), (2, invalid), (3, overflowed), (4, long)):
            for other in (b"", b"\0\0\0\0", truncated, invalid, overflowed, long):
                refused(number, capgauze.corrected_by, bad, other, 0)
                refused(number, capgauze.corrected, bad, other)
            refused(number, capgauze.corrected_by, b"\0\0\0\0", bad, 0)  # before Repeated
            refused(number, capgauze.corrected, b"\0\0\0\0", bad)

    def test_the_longest(self):
        for length in (capgauze.LIMIT - 6, capgauze.LIMIT - 5):
            original = capgauze.message([(0, 1, 0, length)], bytes(length))
            if length == capgauze.LIMIT - 6:
                assert capgauze.corrected(original, b"\x04\0") == original + b"\x04\0"
            else:
                refused(4, capgauze.corrected, original, b"\x04\0")
            assert capgauze.corrected_part(original, b"\x04\0", 0).nbytes == length
