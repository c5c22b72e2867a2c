"""A working copy: a table over one writable room, in which all payloads lie. None overlaps another, and every key word is NO_KEY."""
from __future__ import annotations

from array import array
from typing import Iterator, Optional

from ._declared import NO_KEY, RECORD_WORDS, WireType
from ._library import Bytes, Room, Table, accepted, lent, owned, room, table_room, words
from .answers import Record, wire_type
from .messages import encode_message, insert, records, with_room
from .runs import LENGTHS


def remove_record(memory: Room, table: Table, count: int, index: int) -> int:
    """Takes out the record at an index, of any type; later ones move down one: the new count.

    >>> table = array("Q", Record(1, 0, 7, 0) + Record(3, 1, 0, 2))
    >>> remove_record(bytearray(b"hi"), table, 2, 0)
    1
    >>> Record(*table[:RECORD_WORDS]) == Record(3, 1, 0, 2)
    True
    """
    return accepted("remove_record", *room(memory), *table_room(table), count, index)[0]


def replace_payload(memory: Room, table: Table, count: int, index: int, payload: Bytes) -> int:
    """Gives the payload at an index other bytes, behind the last payload or, where they do not fit, behind all, packed: the count.

    >>> memory, table = bytearray(b"..hi"), array("Q", Record(3, 1, 2, 2))
    >>> replace_payload(memory, table, 1, 0, b"you"), bytes(memory), table[2:4].tolist()
    (1, b'youi', [0, 3])
    >>> replace_payload(memory, table, 1, 0, b"hello")
    Traceback (most recent call last):
    capgauze.refusals.Refused: NoRoom (5): index 0
    """
    return accepted("replace_payload", *room(memory), *table_room(table), count, index, *lent(payload))[0]


def insert_payload(memory: Room, table: Table, count: int, tag: int, payload: Bytes) -> int:
    """Puts a payload behind all records of equal or lower tag; later ones move up one: the new count.

    >>> memory, table = bytearray(2), words(5)
    >>> insert_payload(memory, table, 0, 4, b"hi"), bytes(memory), table[:4].tolist()
    (1, b'hi', [4, 1, 0, 2])
    """
    return accepted("insert_payload", *room(memory), *table_room(table), count, tag, *lent(payload))[0]


class WorkingCopy:
    """A message that is edited, for hours if need be. It owns a room for its payloads and a table for its records.

    The room has so many bytes and the table so many records, or those of the message, if they are more. Bytes that an edit
    frees are used again. NoRoom is refused exactly if the payloads have more bytes in all than the room.

    >>> copy = WorkingCopy(bytes.fromhex("04050902C0DE"), size=8, most=3)
    >>> copy.insert(2, b"wind")
    >>> copy.replace(2, b"calm")
    >>> copy.remove(0)
    >>> [(record.tag, bytes(copy.payload(index))) for index, record in enumerate(copy)]
    [(2, b'wind'), (3, b'calm')]
    >>> copy.message()
    b'\\t\\x04wind\\x05\\x04calm'
    >>> copy.replace(0, b"storm")
    Traceback (most recent call last):
    capgauze.refusals.Refused: NoRoom (5): index 0
    """

    def __init__(self, s: Bytes = b"", size: int = 0, most: int = 0) -> None:
        s = owned(s)
        found = records(s)
        self._count = len(found)
        self._room = bytearray(s.ljust(size, b"\0"))
        self._table = array("Q", (word for record in found for word in record._replace(key=NO_KEY)))
        self._table.extend(words(RECORD_WORDS * (most - len(found))))

    def __len__(self) -> int:
        return self._count

    def __getitem__(self, index: int) -> Record:
        """The record at an index. A payload's start may be another one after each edit."""
        if not 0 <= index < self._count:
            raise IndexError(index)
        tag, type, *behind = self._table[RECORD_WORDS * index:RECORD_WORDS * (index + 1)]
        return Record(tag, wire_type(type), *behind)

    def __iter__(self) -> Iterator[Record]:
        return (self[index] for index in range(self._count))

    def payload(self, index: int) -> Optional[bytes]:
        """The payload at an index as bytes, or None of another type."""
        record = self[index]
        if record.type != WireType.LENGTH_DELIMITED:
            return None
        return bytes(self._room[record.value:record.value + record.length])

    def spare(self) -> int:
        """How many bytes more its payloads may have."""
        return len(self._room) - sum(record.length for record in self if record.type == WireType.LENGTH_DELIMITED)

    def remove(self, index: int) -> None:
        """Takes out the record at an index."""
        self._count = remove_record(self._room, self._table, self._count, index)

    def replace(self, index: int, payload: Bytes) -> None:
        """Gives the payload at an index other bytes."""
        self._count = replace_payload(self._room, self._table, self._count, index, payload)

    def insert(self, tag: int, payload: Bytes) -> None:
        """Puts a payload behind all records of equal or lower tag."""
        self._count = insert_payload(self._room, self._table, self._count, tag, payload)

    def insert_number(self, tag: int, number: int, type: int = WireType.VARINT) -> None:
        """Puts a number in likewise, of any type but LENGTH_DELIMITED, whose bytes insert takes."""
        if type == WireType.LENGTH_DELIMITED:
            raise TypeError("a payload is put in by insert")
        length = LENGTHS.get(type, 0)  # type: ignore[call-overload]
        self._count = insert(self._room, self._table, self._count, (tag, type, number, length))

    def grow(self, size: int, most: int) -> None:
        """Gives it room for so many bytes and records more."""
        self._room.extend(bytes(size))
        self._table.extend(words(RECORD_WORDS * most))

    def message(self) -> bytes:
        """Its message: what a plain list with the same edits would be written as."""
        source = bytes(self._room)
        return with_room(lambda buf: encode_message(source, self._table, self._count, buf))
