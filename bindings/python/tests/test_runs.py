"""Packed runs."""
from array import array

import pytest

import capgauze
from helpers import NO_KEY, refused


class TestRuns:
    RUNS = ((capgauze.VARINT, "05800007", [5, 128, 7]), (capgauze.THIRTY_TWO_BIT, "0100000000010000FFFFFFFF", [1, 256, 2**32 - 1]),
            (capgauze.SIXTY_FOUR_BIT, "0100000000000000FFFFFFFFFFFFFFFF", [1, 2**64 - 1]),
            (capgauze.LENGTH_DELIMITED, "01AA00020102", [b"\xAA", b"", b"\x01\x02"]))

    def test_there_and_back(self):
        for type, run, values in self.RUNS:
            run = bytes.fromhex(run)
            for kind in (bytes, bytearray, memoryview, lambda s: array("B", s)):
                assert list(capgauze.unpack(kind(run), type)) == values
            assert capgauze.pack(values, type) == run
            assert capgauze.pack(capgauze.unpack(run, type), type) == run
            assert len(capgauze.unpack(b"", type)) == 0
            assert capgauze.pack([], type) == b""
            assert capgauze.run_count(run, type) == len(values)
            assert capgauze.run_value(run, type, len(values)) is None
            table = array("Q", [77] * (5 * len(values) + 1))
            assert capgauze.read_run(run, type, table) == len(values)
            assert table[-1] == 77
            for number in range(len(values)):
                assert capgauze.run_value(run, type, number) == tuple(table[5 * number + 1:5 * number + 4])
                assert (table[5 * number], table[5 * number + 4]) == (0, NO_KEY)
            buf = bytearray(b"\xA5" * (len(run) + 1))
            assert capgauze.write_run(run, table, len(values), type, buf) == (0, len(run))
            assert buf == run + b"\xA5"
            refused(5, capgauze.write_run, run, table, len(values), type, buf[:-2], start=0, needed=len(run))
            refused(5, capgauze.read_run, run, type, table[:-2])

    def test_numbers_in_an_array(self):
        numbers = capgauze.unpack(bytes.fromhex("05800007"))
        assert (numbers.typecode, list(numbers)) == ("Q", [5, 128, 7])
        assert capgauze.pack(array("I", (1, 2)), capgauze.THIRTY_TWO_BIT) == array("I", (1, 2)).tobytes()
        assert capgauze.pack(range(128)) == bytes(range(128))
        for length in (255, 256, 257, 5_000):  # around the buffer that is tried first, and above it
            assert capgauze.pack(bytes(length)) == bytes(length)

    def test_payloads_are_parts(self):
        run = bytearray.fromhex("0268690100")
        first, second = capgauze.unpack(run, capgauze.LENGTH_DELIMITED)
        assert first.obj is run
        run[1] = ord("H")
        assert (bytes(first), bytes(second)) == (b"Hi", b"\0")
        for kind in (bytes, bytearray, memoryview, lambda s: array("B", s)):
            assert capgauze.pack([kind(b"Hi"), kind(b"\0")], capgauze.LENGTH_DELIMITED) == run

    def test_refused(self):
        table = array("Q", [77] * 10)
        for number, run, type in ((1, "80", 0), (1, "0080", 0), (2, "FF" * 9, 0), (1, "0002AA", 1), (2, "FF" * 9, 1),
                                  (1, "000000", 2), (1, "00000000", 3), (6, "00", 4), (6, "80", 2**64 - 1)):
            run = bytes.fromhex(run)
            refused(number, capgauze.run_count, run, type)
            refused(number, capgauze.run_value, run, type, 0)
            refused(number, capgauze.read_run, run, type, table)
            refused(number, capgauze.read_run, run, type, array("Q"))  # before NoRoom
            refused(number, capgauze.unpack, run, type)
        for call in (capgauze.run_count, capgauze.unpack, lambda s, type: capgauze.read_run(s, type, table)):
            refused(4, call, bytes(capgauze.LIMIT + 1), 0)
        assert list(table) == [77] * 10

    def test_records_that_are_not_of_the_run(self):
        buf = bytearray(b"\xA5" * 9)
        good, carried = (0, 0, 5, 0, NO_KEY), lambda start: {"start": start, "needed": 0}
        for bad in ((1, 0, 5, 0, NO_KEY), (0, 2, 5, 4, NO_KEY), (0, 0, 5, 1, NO_KEY), (0, 4, 5, 0, NO_KEY),
                    (2**32, 0, 5, 0, NO_KEY), (0, 0, 5, 0, 0)):
            refused(6, capgauze.write_run, b"", array("Q", good + bad), 2, 0, buf, **carried(1))
        refused(6, capgauze.write_run, b"", array("Q", good), 2, 0, buf, **carried(1))  # the room
        refused(6, capgauze.write_run, b"", array("Q", good), 1, 4, buf, **carried(0))
        refused(6, capgauze.write_run, b"\0", array("Q", (0, 1, 0, 2, 0)), 1, 1, buf, **carried(0))
        refused(4, capgauze.write_run, bytes(capgauze.LIMIT + 1), array("Q"), 0, 0, buf, start=0, needed=0)
        assert buf == b"\xA5" * 9
        refused(6, capgauze.pack, [5, 2**32], capgauze.THIRTY_TWO_BIT, **carried(1))
        refused(6, capgauze.pack, [5], 4, **carried(0))
        for numbers in ([-1], [2**64]):
            with pytest.raises(OverflowError):
                capgauze.pack(numbers)
        with pytest.raises(TypeError):
            capgauze.pack([5], capgauze.LENGTH_DELIMITED)

    def test_the_longest(self):
        numbers = capgauze.words(capgauze.LIMIT)
        run = capgauze.pack(numbers)
        assert run == bytes(capgauze.LIMIT)
        assert capgauze.unpack(run) == numbers
        refused(4, capgauze.pack, capgauze.words(capgauze.LIMIT + 1), start=0, needed=0)
