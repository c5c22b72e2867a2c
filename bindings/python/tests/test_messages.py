"""Messages, refusals, and what is Python's own: buffers and numbers."""
import threading
from array import array

import pytest

import capgauze
from helpers import MESSAGE, NO_KEY, RECORDS, refused


class TestRefusals:
    def test_each_number(self):
        one, two = array("Q", (1, 0, 7, 0, NO_KEY)), array("Q", (1, 0, 7, 0, NO_KEY, 0, 0, 7, 0, NO_KEY))
        read = capgauze.read_message
        refused(1, read, b"\x04", one, place=0, count=0, failing=1, bytes=0)
        refused(2, capgauze.decode_varint, bytes.fromhex("80FFFEFEFEFEFEFEFE"), value=0, place=0, bytes=9)
        refused(3, capgauze.decode_key, bytes.fromhex("FCFEFEFE3E"), 0, 5, 1, tag=1, type=0, place=0, failing=0,
                     bytes=0)
        refused(4, read, bytes(capgauze.LIMIT + 1), one, 0, 0, place=0, count=0, failing=0, bytes=0)
        refused(5, read, b"\x04\x07\x00\x08", one, place=0, count=2, failing=0, bytes=0)
        refused(5, capgauze.prepend_message, b"", one, 1, bytearray(1), start=0, needed=2)
        refused(6, capgauze.encode_message, b"", one, 2, bytearray(), start=1, needed=0)
        refused(6, capgauze.decode_value, b"", 9, 9, 4, value=0, length=0, place=9, failing=0, bytes=0)
        refused(7, capgauze.encode_message, b"", two, 2, bytearray(9), start=1, needed=0)
        refused(8, read, b"\x04\x07", one, 0, 3, place=0, count=0, failing=0, bytes=0)
        assert one == array("Q", (1, 0, 7, 0, NO_KEY))

    def test_names(self):
        with pytest.raises(capgauze.Refused) as caught:
            capgauze.records(b"\x04\x07\x00")
        assert caught.value.name == "Truncated"
        assert isinstance(caught.value, ValueError)

    def test_a_sentence(self):
        """A damaged message of each kind."""
        truncated, began = "Truncated (1): the message's field at", "ends too soon; the failing read began at"
        for damaged, end, said in (
                ("04", 1, f"{truncated} 0 {began} 1"),
                ("00070080", 4, f"{truncated} 2 {began} 3 and looked at 1 byte of a varint"),
                ("00078080", 4, f"{truncated} 2 {began} 2 and looked at 2 bytes of a varint"),
                ("0103AA", 3, f"{truncated} 0 {began} 1"),
                ("020102", 3, f"{truncated} 0 {began} 1"),
                ("008000", 2, f"{truncated} 0 {began} 3"),
                ("00" + 9 * "FF", 10, "InvalidVarint (2): the message's field at 0 has a varint of 2^64 or more; "
                                      "the failing read began at 1 and looked at 9 bytes of a varint"),
                ("80FFFEFE3E00", 6, "TagOverflowed (3): the message's field at 0 has a tag above 4,294,967,295; "
                                    "the failing read began at 0"),
                ("", 1, "BadCap (8): a place, a start or an end is above the slice's length"),
                ("0007", 2, "NoRoom (5): the table has no room for 1 fields")):
            with pytest.raises(capgauze.Refused) as caught:
                capgauze.read_message(bytes.fromhex(damaged), array("Q"), 0, end)
            assert str(caught.value) == said

    def test_insertion(self):
        table = array("Q", (1, 0, 7, 0, 1, 5, 5, 5, 5, 5))
        refused(6, capgauze.insert, b"A", table, 1, (0, 0, 9, 0), value=0)  # a key at the source's end
        assert capgauze.insert(b"AB", table, 1, (0, 0, 9, 0)) == 2
        assert table == array("Q", (0, 0, 9, 0, NO_KEY, 1, 0, 7, 0, 1))
        refused(5, capgauze.insert, b"AB", table, 2, (0, 0, 9, 0), value=0)
        refused(6, capgauze.insert, b"AB", table, 2, (0, 0, 9, 1), value=2)
        table[:5] = array("Q", (5, 5, 5, 5, 5))  # a record with its key: put in without it
        assert capgauze.insert(b"", table, 0, capgauze.Record(1, 0, 7, 0, 3)) == 1
        assert table[:5] == array("Q", (1, 0, 7, 0, NO_KEY))


class TestMessages:
    def test_there_and_back(self):
        records = capgauze.records(MESSAGE)
        assert records == RECORDS
        assert capgauze.message(records, MESSAGE) == MESSAGE
        assert capgauze.records(b"") == []
        assert capgauze.message([]) == b""
        for length in (253, 254, 300, 5_000):  # around the buffer that is tried first, and above it
            source = bytes(i % 251 for i in range(length))
            head = bytearray(2)
            capgauze.encode_varint(length, head)
            assert capgauze.message([(0, 1, 0, length)], source) == b"\x01" + head + source

    def test_any_bytes(self):
        for kind in (bytes, bytearray, memoryview, lambda s: array("B", s)):
            assert capgauze.records(kind(MESSAGE)) == RECORDS
            assert bytes(capgauze.payload_of(kind(MESSAGE), RECORDS[1])) == b"\xC0\xDE"
        assert capgauze.records(memoryview(b"\x00" + MESSAGE)[1:]) == RECORDS
        with pytest.raises(TypeError):
            capgauze.records(5)
        with pytest.raises(TypeError):
            capgauze.records("04")

    def test_a_part_and_no_copy(self):
        message = bytearray(MESSAGE)
        part = capgauze.payload_of(message, RECORDS[1])
        message[12] = 0xFF
        assert bytes(part) == b"\xFF\xDE"

    def test_a_part_read_as_a_message(self):
        inner = capgauze.message([(1, 0, 101_325, 0), (2, 0, 2**64 - 1, 0)])
        outer = capgauze.message([(1, 0, 11_035, 0), (3, 1, 0, len(inner))], inner)
        level = capgauze.records(outer)[1]
        table = capgauze.words(10)
        assert capgauze.read_payload(outer, level, table) == (len(inner), 2)
        assert list(table) == [1, 0, 101_325, 0, 0, 2, 0, 2**64 - 1, 0, 4]
        assert capgauze.records(capgauze.payload_of(outer, level)) == capgauze.records(inner)

    def test_steps(self):
        at, last, seen = 0, 0, []
        while step := capgauze.step_at(MESSAGE, at, last=last):
            seen.append(step[:4])
            at, last = step.place, step.tag
        assert seen == [record[:4] for record in RECORDS]

    def test_pick(self):
        assert capgauze.pick(MESSAGE, 1) == (0, 2**64 - 1, 0)
        assert capgauze.pick(MESSAGE, 2) is None
        with pytest.raises(capgauze.Refused) as caught:
            capgauze.pick(MESSAGE, 3)
        assert (caught.value.number, caught.value.name) == (11, "Repeated")

    def test_pick_at(self):
        assert capgauze.pick_at(MESSAGE, 3, 0) == (2, (1, 12, 2))
        assert capgauze.pick_at(MESSAGE, 3, 1) == (2, (2, 1, 4))
        assert capgauze.pick_at(MESSAGE, 3, 2) == (2, None)
        assert capgauze.pick_at(MESSAGE, 2, 0) == (0, None)

    def test_pick_early(self):
        assert capgauze.pick_early(MESSAGE, 1) == (2, (0, 2**64 - 1, 0))
        assert capgauze.pick_early(MESSAGE, 2) == (2, None)
        assert capgauze.pick_early(MESSAGE, 4) == (3, None)
        assert capgauze.pick_early(bytes.fromhex("000005"), 0) == (2, (0, 0, 0))
        with pytest.raises(capgauze.Refused):
            capgauze.pick_early(MESSAGE, 3)

    def test_both_ways(self):
        table = array("Q", (word for record in RECORDS for word in record))
        for write, start in ((capgauze.encode_message, 0), (capgauze.prepend_message, 3)):
            buf = bytearray(b"\xA5" * 22)
            assert write(MESSAGE, table, 3, buf) == (start, 19)
            assert buf[start:start + 19] == MESSAGE
            assert bytes(buf[:start] + buf[start + 19:]) == b"\xA5\xA5\xA5"

    def test_whole_fields(self):
        inner = bytes.fromhex("00") + MESSAGE + MESSAGE[10:]
        for s, start in ((MESSAGE, 0), (b"\x01\x00" + MESSAGE, 0), (inner, 1)):
            records = capgauze.records(s, start)
            parts = [capgauze.field_parts(s, record) for record in records]
            assert b"".join(capgauze.field_bytes(s, record) for record in records) == s[start:]
            assert [part.end for part in parts] == [*(record.key for record in records[1:]), len(s)]
            for record, part in zip(records, parts):
                value = s[part.value:part.end]
                assert (part.length is not None) == (record.type == 1)
                assert part.key < (part.length or part.value) <= part.value <= part.end
                if record.type == 1:
                    assert value == capgauze.payload_of(s, record)
                elif record.type == 0:
                    assert capgauze.decode_varint(value) == (record.value, len(value))
                else:
                    assert int.from_bytes(value, "little") == record.value
        assert capgauze.field_parts(MESSAGE, (1, 0, 5, 0)) is None
        assert bytes(capgauze.field_bytes(MESSAGE, (1, 0, 5, 0))) == b""

    def test_keys(self):
        source = bytes.fromhex("0101AA")
        for key, shown in ((0, b"\xAA"), (2, b"\xAA"), (3, b""), (2**64 - 2, b""), (NO_KEY, b"\xAA")):
            assert bytes(capgauze.payload_of(source, (0, 1, 2, 1, key))) == shown
            if shown:
                assert capgauze.message([(0, 1, 2, 1, key)], source) == source
            else:
                with pytest.raises(capgauze.Refused) as caught:
                    capgauze.message([(0, 0, 0, 0), (0, 1, 2, 1, key)], source)
                assert (caught.value.number, caught.value.carried["start"]) == (6, 1)

    def test_parts_written(self):
        for put, shown in ((capgauze.encode_varint, "8000a5"), (capgauze.prepend_varint, "a58000")):
            buf = bytearray(b"\xA5" * 3)
            assert (put(128, buf), buf.hex()) == (2, shown)
        for put, shown in ((capgauze.encode_key, "09a5"), (capgauze.prepend_key, "a509")):
            buf = bytearray(b"\xA5" * 2)
            assert (put(3, 5, capgauze.LENGTH_DELIMITED, buf), buf.hex()) == (1, shown)
        assert [capgauze.key_len(0, tag) for tag in (31, 32)] == [1, 2]


class TestTheLimit:
    """The longest messages, in a thread with a small stack: what is read and written lies on the heap."""

    def test_the_longest(self):
        before = threading.stack_size(256 * 1024)
        try:
            seen = []
            thread = threading.Thread(target=lambda: seen.append(self.longest()))
            thread.start()
            thread.join()
        finally:
            threading.stack_size(before)
        assert seen == [(524_287, True, capgauze.LIMIT, 262_142, (262_142, capgauze.HAS_EXTENSIONS))]

    def longest(self):
        message = bytes(capgauze.LIMIT - 3) + b"\0\x80\0"
        records = capgauze.records(message)
        same = capgauze.message(records, message) == message
        payload = capgauze.message([(0, 1, 0, capgauze.LIMIT - 4)], message)
        levels = b"\x05\x02\x04\x64" + b"\x01\x02\x04\x64" * 262_141
        sounding = b"\x04\x01\x04\0" + levels + b"\x05\x01\0"
        graded = capgauze.graded(sounding, capgauze.NOT_CANONICAL)
        return (len(records), same, len(payload), len(capgauze.sounding(sounding).levels),
                (len(graded.levels), graded.grade))

    def test_one_byte_over(self):
        source = bytes(capgauze.LIMIT + 1)
        for call in (capgauze.records, capgauze.sounding, capgauze.Index, lambda s: capgauze.pick(s, 0)):
            with pytest.raises(capgauze.Refused) as caught:
                call(source)
            assert caught.value.name == "TooLong"
        with pytest.raises(capgauze.Refused) as caught:
            capgauze.message([(0, 1, 0, capgauze.LIMIT - 3)], source[1:])
        assert caught.value.name == "TooLong"


class TestLent:
    def test_words_of_numpy(self):
        numpy = pytest.importorskip("numpy")
        table = numpy.full(16, 77, numpy.uint64)
        assert capgauze.read_message(MESSAGE, table).count == 3
        assert table.tolist() == [word for record in RECORDS for word in record] + [77]
        buf = numpy.zeros(19, numpy.uint8)
        assert capgauze.encode_message(MESSAGE, table, 3, buf) == (0, 19) and buf.tobytes() == MESSAGE
        for wrong in (table[::2], table.astype(numpy.uint32)):
            with pytest.raises(TypeError):
                capgauze.read_message(MESSAGE, wrong)

    def test_empty(self):
        assert capgauze.read_message(b"", array("Q")) == (0, 0)
        assert capgauze.encode_message(b"", array("Q"), 0, bytearray()) == (0, 0)
        with pytest.raises(capgauze.Refused):
            capgauze.encode_varint(0, bytearray())

    def test_only_writable_words(self):
        for table in (bytes(32), bytearray(32), array("I", bytes(32)), memoryview(capgauze.words(8))[::2]):
            with pytest.raises(TypeError):
                capgauze.read_message(b"\x00\x00", table)
        with pytest.raises(TypeError):
            capgauze.encode_varint(0, b"12")

    def test_numbers_that_do_not_fit(self):
        buf = bytearray(b"\xA5" * 9)
        for call, arguments in [(capgauze.encoded_len_varint, (2**64,)), (capgauze.encoded_len_varint, (-1,)),
                                (capgauze.i64_to_unsigned, (2**63,)), (capgauze.decode_varint, (b"\x00", -1)),
                                (capgauze.pick, (b"", 2**32)), (capgauze.encode_varint, (-1, buf))]:
            with pytest.raises(OverflowError):
                call(*arguments)
        assert buf == b"\xA5" * 9
