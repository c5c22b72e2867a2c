"""Indexes beside messages."""
from array import array

import pytest

import capgauze
from helpers import MESSAGE, refused


class TestIndexes:
    WORDS = [1, 0, 1, 3, 10, 2]
    LINE = b"02000000010000000000010000000300000A000002"
    OLD_LINE = b"01000000010000000100000003000A0002"

    def test_made(self):
        index = array("Q", [77] * 7)
        assert capgauze.make_index(MESSAGE, index) == 2
        assert list(index) == self.WORDS + [77]
        small = array("Q", [77] * 5)
        refused(5, capgauze.make_index, MESSAGE, small)
        refused(1, capgauze.make_index, MESSAGE[:-1], small)
        refused(4, capgauze.make_index, bytes(capgauze.LIMIT + 1), small)
        assert list(small) == [77] * 5

    def test_fits(self):
        index = array("Q", self.WORDS)
        assert capgauze.index_fits(MESSAGE, index, 2) is True
        for tags in (0, 1, 3, 2**64 - 1):
            assert capgauze.index_fits(MESSAGE, index, tags) is False
        for i in range(6):
            index[i] += 1
            assert not capgauze.index_fits(MESSAGE, index, 2)
            index[i] -= 1
        assert not capgauze.index_fits(MESSAGE, array("Q", self.WORDS + [4, 0, 1]), 3)
        assert capgauze.index_fits(b"", index, 0)
        assert not capgauze.index_fits(MESSAGE[:-1], index, 2)

    def test_looked_up(self):
        index = array("Q", self.WORDS)
        assert capgauze.pick_indexed(MESSAGE, index, 2, 1) == capgauze.pick(MESSAGE, 1)
        assert capgauze.pick_indexed(MESSAGE, index, 2, 2) is None
        refused(11, capgauze.pick_indexed, MESSAGE, index, 2, 3)
        refused(12, capgauze.pick_indexed, MESSAGE, index, 3, 1)
        refused(12, capgauze.pick_indexed, MESSAGE[:10], index, 2, 1)
        refused(4, capgauze.pick_indexed, bytes(capgauze.LIMIT + 1), index, 0, 1)
        refused(12, capgauze.pick_indexed, b"\0\0", array("Q", (0, 0, 2**64 - 1)), 1, 0)
        refused(12, capgauze.pick_indexed, b"\0\0", array("Q", (0, 0, 1, 0, 0, 1)), 2, 0)
        refused(12, capgauze.pick_indexed, bytes.fromhex("00000400"), array("Q", (0, 0, 2)), 1, 0)
        refused(3, capgauze.pick_indexed, bytes.fromhex("FCFEFEFE3E000400"), array("Q", (7, 0, 2)), 1, 7)
        assert capgauze.pick_indexed(b"\x05\0", array("Q", (7, 0, 1)), 1, 7) == (1, 2, 0)
        with pytest.raises(OverflowError):
            capgauze.pick_indexed(MESSAGE, index, 2, 2**32)

    def test_lines(self):
        line = bytearray(b"-" * 43)
        assert capgauze.write_line(array("Q", self.WORDS), 2, line) == 42
        assert line == self.LINE + b"-"
        index = array("Q", [77] * 6)
        refused(12, capgauze.read_line, line, 19, index)
        refused(12, capgauze.read_line, self.LINE.lower(), 19, index)
        for none in (b"", b"0", b"03", b"020", b"020000000A000000000000", b"010000000A00000000", b"010000000A000000000001",
                     b"020000000A00000001", b"020000000A0000000000010000000A000000000001",
                     b"010000000A000000010000000A00000001"):
            for beside in (0, 65_535, 65_536, 2**64 - 1):
                refused(12, capgauze.read_line, none, beside, index)
        refused(5, capgauze.read_line, self.LINE, 19, index[:5])
        assert list(index) == [77] * 6
        assert capgauze.read_line(self.LINE, 19, index) == 2
        assert list(index) == self.WORDS
        assert capgauze.read_line(b"02", 19, array("Q")) == 0
        for index, tags, number in (((), 0, 5), ((0, 2**24, 1), 1, 12), ((0, 0, 2**24), 1, 12), ((0, 0, 0), 1, 12)):
            line = bytearray(b"-")
            refused(number, capgauze.write_line, array("Q", index), tags, line)
            assert line == b"-"
        with pytest.raises(OverflowError):
            capgauze.read_line(b"02", -1, array("Q"))

    def test_lines_of_edition_01(self):
        for beside in (0, 19, 65_535):
            index = array("Q", [77] * 6)
            assert capgauze.read_line(self.OLD_LINE, beside, index) == 2
            assert list(index) == self.WORDS
            assert capgauze.Index.of_line(self.OLD_LINE, beside).line() == self.LINE.decode()
            assert capgauze.Index.of_line("01", beside).line() == "02"
        for beside in (65_536, capgauze.LIMIT, 2**64 - 1):
            index = array("Q", [77] * 6)
            refused(12, capgauze.read_line, self.OLD_LINE, beside, index)
            refused(12, capgauze.read_line, b"01", beside, index)
            assert list(index) == [77] * 6
            assert capgauze.read_line(self.LINE, beside, index) == 2

    def test_an_index_with_its_own_words(self):
        for kind in (bytes, bytearray, memoryview):
            index = capgauze.Index(kind(MESSAGE))
            assert (len(index), list(index)) == (2, [(1, 0, 1), (3, 10, 2)])
            assert index.fits(kind(MESSAGE))
            assert index.pick(kind(MESSAGE), 1) == (0, 2**64 - 1, 0)
        assert index.line() == self.LINE.decode()
        for line in (self.LINE, self.LINE.decode(), bytearray(self.LINE)):
            assert capgauze.Index.of_line(line, len(MESSAGE)) == index
        assert capgauze.Index(b"").line() == "02"
        assert capgauze.Index(b"") != index
        refused(12, capgauze.Index.of_line, "02é", 0)
        refused(1, capgauze.Index, MESSAGE[:-1])
        refused(4, capgauze.Index, bytes(capgauze.LIMIT + 1))
        message = b"\x04\0" * (capgauze.LIMIT // 2)
        tags = capgauze.Index(message)
        assert len(tags) == 524_287
        assert capgauze.Index.of_line(tags.line(), len(message)) == tags
