"""Whole messages: read into a table, looked up in, written from one."""
from __future__ import annotations

from array import array
from typing import Any, Callable, Iterable, Optional, Sequence

from ._declared import NO_KEY, RECORD_WORDS, Refusal, WireType
from ._library import Bytes, Room, Table, accepted, call, lent, most_fields, owned, room, table_room, words
from .answers import Early, Parts, Picked, Read, Record, Several, Written, picked, wire_type
from .parts import decode_varint, up_to
from .refusals import Refused


def read_message(s: Bytes, table: Table, start: int = 0, end: Optional[int] = None) -> Read:
    """Reads the message from start up to end into the table: the end reached and the number of fields.

    >>> table = words(5)
    >>> read_message(bytes.fromhex("0902C0DE"), table)
    Read(place=4, count=1)
    >>> Record(*table)
    Record(tag=2, type=1, value=2, length=2, key=0)
    """
    return Read(*accepted("read_message", *lent(s), start, up_to(s, end), *table_room(table)))


def payload_of(s: Bytes, record: Sequence[int]) -> memoryview:
    """The payload of a record as a part of the message; the empty part, if it has none.

    >>> bytes(payload_of(bytes.fromhex("0902C0DE"), (2, 1, 2, 2))).hex()
    'c0de'
    """
    start, length = call("payload_of", *lent(s), *Record(*record))
    return memoryview(s).cast("B")[start:start + length]


def read_payload(s: Bytes, record: Sequence[int], table: Table) -> Read:
    """Reads a record's payload as a message in itself; places count from the payload's first byte.

    >>> table = words(5)
    >>> read_payload(bytes.fromhex("05020007"), (1, 1, 2, 2), table), table.tolist()
    (Read(place=2, count=1), [0, 0, 7, 0, 0])
    """
    return Read(*accepted("read_payload", *lent(s), *Record(*record), *table_room(table)))


def field_parts(s: Bytes, record: Sequence[int]) -> Optional[Parts]:
    """Where the parts of a field that was read from s start: its key, its length (None where it has none), its value; and its end.

    None for a record without a key.

    >>> s = bytes.fromhex("04050902C0DE")
    >>> for record in records(s): print(field_parts(s, record))
    Parts(key=0, length=None, value=1, end=2)
    Parts(key=2, length=3, value=4, end=6)
    """
    record = Record(*record)
    if record.key == NO_KEY:
        return None
    behind = decode_varint(s, record.key).place
    if record.type == WireType.LENGTH_DELIMITED:
        return Parts(record.key, behind, record.value, record.value + record.length)
    end = decode_varint(s, behind).place if record.type == WireType.VARINT else behind + record.length
    return Parts(record.key, None, behind, end)


def field_bytes(s: Bytes, record: Sequence[int]) -> memoryview:
    """The whole field of a record that was read from s, as a part of s: its key, its length and its value.

    The empty part for a record without a key.

    >>> s = bytes.fromhex("04050902C0DE")
    >>> [bytes(field_bytes(s, record)).hex() for record in records(s)]
    ['0405', '0902c0de']
    """
    parts = field_parts(s, record)
    return memoryview(s).cast("B")[parts.key:parts.end] if parts else memoryview(b"")


def pick(s: Bytes, tag: int) -> Optional[Picked]:
    """Reads the whole message: the only field of the tag, or None; Repeated where there are more.

    >>> pick(bytes.fromhex("040504010000"), 1)
    Picked(type=VARINT, value=5, length=0)
    >>> pick(bytes.fromhex("040504010000"), 2)
    Traceback (most recent call last):
    capgauze.refusals.Refused: Repeated (11)
    """
    found, type, value, length = accepted("pick", *lent(s), tag)
    return picked(found, type, value, length)


def pick_at(s: Bytes, tag: int, number: int) -> Several:
    """Reads the whole message: how many fields the tag has, and the one at a number, counted from 0, or None.

    >>> pick_at(bytes.fromhex("040504010000"), 2, 1)
    Several(count=2, picked=Picked(type=VARINT, value=0, length=0))
    >>> pick_at(bytes.fromhex("040504010000"), 2, 2)
    Several(count=2, picked=None)
    """
    count, found, type, value, length = accepted("pick_at", *lent(s), tag, number)
    return Several(count, picked(found, type, value, length))


def pick_early(s: Bytes, tag: int) -> Early:
    """Reads up to the first key above the tag: how many keys were read, and the only field of the tag, or None.

    >>> pick_early(bytes.fromhex("0405040105"), 1)
    Early(keys=2, picked=Picked(type=VARINT, value=5, length=0))
    """
    keys, found, type, value, length = accepted("pick_early", *lent(s), tag)
    return Early(keys, picked(found, type, value, length))


def encode_message(source: Bytes, table: Table, count: int, buf: Room) -> Written:
    """Writes the table's first records as a message to the buffer's front: start and length.

    NoRoom (5) carries the length needed.

    >>> encode_message(b"", array("Q", Record(0, 0, 0, 0)), 1, bytearray())
    Traceback (most recent call last):
    capgauze.refusals.Refused: NoRoom (5): start 0, needed 2
    """
    return Written(*accepted("encode_message", *lent(source), *table_room(table), count, *room(buf)))


def prepend_message(source: Bytes, table: Table, count: int, buf: Room) -> Written:
    """Writes it to the buffer's end.

    >>> buf = bytearray(3)
    >>> prepend_message(b"", array("Q", Record(1, 0, 5, 0)), 1, buf), buf.hex()
    (Written(start=1, length=2), '000405')
    """
    return Written(*accepted("prepend_message", *lent(source), *table_room(table), count, *room(buf)))


def insert(source: Bytes, table: Table, count: int, record: Sequence[int]) -> int:
    """Puts a record behind all of equal or lower tag among the table's first `count`: the new count. It has no key.

    >>> table = words(5)
    >>> insert(b"", table, 0, (1, 0, 5, 0)), Record(*table) == (1, 0, 5, 0, NO_KEY)
    (1, True)
    """
    return accepted("insert", *lent(source), *table_room(table), count, *Record(*record)[:-1])[0]


def records(s: Bytes, start: int = 0, end: Optional[int] = None) -> list[Record]:
    """All records of a message.

    >>> for record in records(bytes.fromhex("0405040A0902C0DE")): print(record)
    Record(tag=1, type=VARINT, value=5, length=0, key=0)
    Record(tag=2, type=VARINT, value=10, length=0, key=2)
    Record(tag=4, type=LENGTH_DELIMITED, value=6, length=2, key=4)
    """
    s = owned(s)
    table = words(RECORD_WORDS * most_fields(s))
    count = read_message(s, table, start, end).count
    columns = (table[word:RECORD_WORDS * count:RECORD_WORDS] for word in range(RECORD_WORDS))
    return [Record(tag, wire_type(type), *behind) for tag, type, *behind in zip(*columns)]


def message(records: Iterable[Sequence[int]], source: Bytes = b"") -> bytes:
    """The message of these records, their payloads taken from the source. A key may be left out.

    >>> message([(1, 0, 5, 0), (4, 1, 0, 2)], b"hello").hex()
    '04050d026865'
    """
    table = array("Q", (word for record in records for word in Record(*record)))
    source, count = owned(source), len(table) // RECORD_WORDS
    return with_room(lambda buf: encode_message(source, table, count, buf))


def with_room(write: Callable[[Any], Written]) -> bytes:
    """What a writer writes to the front of a buffer that has room for it."""
    buf = bytearray(256)
    try:
        length = write(buf).length
    except Refused as refused:
        if refused.number != Refusal.NO_ROOM:
            raise
        buf = bytearray(refused.carried["needed"])
        length = write(buf).length
    return bytes(buf[:length])
