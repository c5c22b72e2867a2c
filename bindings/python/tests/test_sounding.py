"""One sounding, of either edition."""
from array import array

import pytest

import capgauze
from helpers import refused


class TestSoundings:
    ICED = bytes.fromhex("04010400050E0464040304FFFEFEFEFEFEFEFEFE")

    def test_missing_is_none(self):
        station, launch, levels = capgauze.sounding(self.ICED)
        assert (station, launch) == (1, 0)
        assert levels == [capgauze.Level(100, -0.2, None)]

    def test_refused_leaves_the_table(self):
        table = array("Q", [77] * 5)
        for sounding, name in [("0400", "OutOfRange"), ("0401", "MissingField"), ("0500", "WrongWireType"),
                               ("040100010400", "Repeated"),
                               ("04010400050E", "Truncated")]:
            with pytest.raises(capgauze.Refused) as caught:
                capgauze.read_sounding(bytes.fromhex(sounding), table)
            assert caught.value.name == name
        assert list(table) == [77] * 5


class TestGrades:
    ONES = "FFFEFEFEFEFEFEFEFE"
    GRADES = capgauze.NOT_CANONICAL, capgauze.HAS_EXTENSIONS, capgauze.CANONICAL

    def sounding(self, *levels, behind=""):
        levels = [bytes.fromhex(level) for level in levels]
        keys = [5] + [1] * len(levels)
        body = b"".join(bytes((key, len(level))) + level for key, level in zip(keys, levels))
        return b"\x04\x01\x04\x00" + body + bytes.fromhex(behind)

    def refused(self, name, sounding, least):
        table = array("Q", [77] * 2 * capgauze.GRADED_WORDS)
        for call in (lambda: capgauze.read_graded(sounding, table, least), lambda: capgauze.graded(sounding, least)):
            with pytest.raises(capgauze.Refused) as caught:
                call()
            assert (caught.value.name, caught.value.carried) == (name, {})
        assert list(table) == [77] * 2 * capgauze.GRADED_WORDS

    def test_wind(self):
        sounding = self.sounding("046404030807045A", "04640CD00E04E701")
        for s in (sounding, bytearray(sounding), memoryview(sounding)):
            station, launch, levels, grade = capgauze.graded(s, capgauze.CANONICAL)
            assert (station, launch, grade) == (1, 0, capgauze.CANONICAL)
            assert levels == [(100, -0.2, None, 0.7, 90), (100, None, None, 200.0, 359)]
        first = [level[:3] for level in levels]
        assert [tuple(level) for level in capgauze.sounding(sounding).levels] == first

    def test_the_table(self):
        table = array("Q", [77] * 10)
        sounding = self.sounding("04640C07")
        assert capgauze.read_graded(sounding, table, capgauze.CANONICAL) == (1, 0, 1, capgauze.CANONICAL)
        none = (0, 2**64 - 1)
        assert tuple(table) == (100, *none, *none, 1, 7, *none, 77)
        with pytest.raises(capgauze.Refused) as caught:
            capgauze.read_graded(sounding, memoryview(table)[:8], capgauze.CANONICAL)
        assert caught.value.name == "NoRoom"

    def test_grades(self):
        written, unknown = "NotCanonical", "UnknownField"
        for sounding, grade, below_extensions, below_canonical in [
                (self.sounding("0464"), 2, None, None),
                (self.sounding("046404" + self.ONES), 0, written, written),
                (self.sounding("046408" + self.ONES), 0, written, written),
                (self.sounding("04640C" + self.ONES), 0, written, written),
                (self.sounding("046410" + self.ONES), 0, written, written),
                (self.sounding("046414" + self.ONES), 1, None, unknown),
                (self.sounding("0464", behind="04" + self.ONES), 1, None, unknown),
                (self.sounding("04642001", "04640C" + self.ONES), 0, written, unknown),
                (self.sounding("04640C" + self.ONES + "2001"), 0, written, written)]:
            for least, refusal in zip(self.GRADES, (None, below_extensions, below_canonical)):
                if refusal:
                    self.refused(refusal, sounding, least)
                else:
                    assert capgauze.graded(sounding, least).grade == grade

    def test_refused(self):
        for level, name in [("04640CD10E", "OutOfRange"), ("046410E801", "OutOfRange"), ("04640D00", "WrongWireType"),
                            ("04640C010100", "Repeated"), ("0C01", "MissingField")]:
            for least in self.GRADES:  # before any grade
                self.refused(name, self.sounding("04642001", level), least)
        for least in (3, 2**64 - 1):  # no grade
            self.refused("BadRecord", b"", least)
        with pytest.raises(OverflowError):
            capgauze.graded(b"", -1)
        self.refused("TooLong", bytes(capgauze.LIMIT + 1), capgauze.CANONICAL)
