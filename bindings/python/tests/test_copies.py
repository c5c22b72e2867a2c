"""Working copies."""
from array import array

import pytest

import capgauze
from helpers import MESSAGE, refused


class TestCopies:
    def rows(self, *records, free=0):
        table = array("Q", (word for record in records for word in capgauze.Record(*record)))
        table.extend([77] * capgauze.RECORD_WORDS * free)
        return table

    def refused(self, number, index, call, memory, table, *arguments):
        before = bytes(memory), table.tolist()
        with pytest.raises(capgauze.Refused) as caught:
            call(memory, table, *arguments)
        assert (caught.value.number, caught.value.carried) == (number, {"index": index})
        assert (bytes(memory), table.tolist()) == before

    def test_each_edit(self):
        memory, table = bytearray(b"..ab.c"), self.rows((0, 1, 5, 1), (1, 1, 2, 2), (1, 1, 4, 0), free=1)
        assert capgauze.insert_payload(memory, table, 3, 0, b"X") == 4
        assert memory == b"abcX.c"  # packed in order of place
        assert table == self.rows((0, 1, 2, 1), (0, 1, 3, 1), (1, 1, 0, 2), (1, 1, 0, 0))
        assert capgauze.replace_payload(memory, table, 4, 2, b"12") == 4
        assert memory == b"abcX12"
        assert capgauze.remove_record(memory, table, 4, 0) == 3
        last = (1, 1, 0, 0)
        assert table == self.rows((0, 1, 3, 1), (1, 1, 4, 2), last, last)

    def test_refused(self):
        edits = [(capgauze.remove_record, 0), (capgauze.replace_payload, 0, b"12345"), (capgauze.insert_payload, 0, b"12345")]
        for memory, table, count, number, index in [
                (bytearray(capgauze.LIMIT + 1), self.rows(), 1, 4, 0),
                (bytearray(4), self.rows((0, 1, 0, 1)), 2, 6, 1),
                (bytearray(4), self.rows((0, 1, 0, 1), (0, 1, 4, 1)), 2, 6, 1),
                (bytearray(4), self.rows((1, 0, 0, 0), (0, 0, 0, 0)), 2, 7, 1),
                (bytearray(4), self.rows((0, 1, 1, 2), (0, 1, 0, 2)), 2, 6, 1),
                (bytearray(4), self.rows((0, 0, 0, 0, 0), (0, 1, 0, 2), (0, 1, 1, 1)), 3, 6, 2),
                (bytearray(4), self.rows((0, 1, 0, 2), (0, 0, 0, 0, 3)), 2, 6, 1)]:
            for call, *arguments in edits:
                self.refused(number, index, call, memory, table, count, *arguments)
        memory, table = bytearray(4), self.rows((0, 1, 0, 1), (0, 0, 5, 0))
        self.refused(6, 2, capgauze.remove_record, memory, table, 2, 2)
        self.refused(6, 2, capgauze.replace_payload, memory, table, 2, 2, b"12345")
        self.refused(6, 1, capgauze.replace_payload, memory, table, 2, 1, b"12345")
        self.refused(5, 0, capgauze.replace_payload, memory, table, 2, 0, b"12345")
        self.refused(5, 0, capgauze.insert_payload, memory, table, 2, 0, b"")
        with pytest.raises(TypeError):
            capgauze.remove_record(bytes(memory), table, 2, 0)

    def test_a_copy_beside_a_list(self):
        copy, plain = capgauze.WorkingCopy(size=24, most=6), []
        for turn in range(2000):
            tag, payload = turn * 7 % 5, bytes([turn % 256]) * (turn * 13 % 11)
            index = turn * 5 % 8
            try:
                if turn % 3 == 0:
                    copy.insert(tag, payload)
                    plain.insert(sum(other <= tag for other, _ in plain), (tag, payload))
                elif turn % 3 == 1:
                    copy.replace(index, payload)
                    plain[index] = plain[index][0], payload
                else:
                    copy.remove(index)
                    del plain[index]
            except capgauze.Refused as refused:
                live = sum(len(other) for _, other in plain)
                if turn % 3 == 0:
                    assert refused.number == 5
                    assert live + len(payload) > 24 or len(plain) == 6
                elif index >= len(plain):
                    assert (refused.number, refused.carried) == (6, {"index": index})
                else:
                    assert refused.number == 5
                    assert live - len(plain[index][1]) + len(payload) > 24
            source = b"".join(payload for _, payload in plain)
            starts = [sum(len(payload) for _, payload in plain[:i]) for i in range(len(plain))]
            records = [(tag, 1, start, len(payload)) for start, (tag, payload) in zip(starts, plain)]
            assert copy.message() == capgauze.message(records, source)
            assert copy.spare() == 24 - len(source)
        assert [(record.tag, copy.payload(i)) for i, record in enumerate(copy)] == plain

    def test_a_copy_of_a_message(self):
        copy = capgauze.WorkingCopy(MESSAGE, most=5)
        assert copy.message() == MESSAGE
        assert [record.key for record in copy] == [capgauze.NO_KEY] * 3
        assert (copy.payload(0), copy.payload(1)) == (None, b"\xC0\xDE")
        assert copy.spare() == len(MESSAGE) - 2
        copy.insert_number(3, 5)
        copy.insert_number(0, 2**32 - 1, capgauze.THIRTY_TWO_BIT)
        assert [record[:3] for record in copy] == [(0, 2, 2**32 - 1), (1, 0, 2**64 - 1), (3, 1, 12), (3, 2, 1), (3, 0, 5)]
        with pytest.raises(capgauze.Refused):
            copy.insert_number(0, 0)
        copy.grow(3, 1)
        copy.insert_number(0, 0, capgauze.SIXTY_FOUR_BIT)
        with pytest.raises(TypeError):
            copy.insert_number(0, 0, capgauze.LENGTH_DELIMITED)
        with pytest.raises(IndexError):
            copy[6]
        copy.replace(3, bytes(len(MESSAGE) + 3))
        assert copy.spare() == 0
        with pytest.raises(capgauze.Refused) as caught:
            capgauze.WorkingCopy(b"\x00")
        assert caught.value.name == "Truncated"
