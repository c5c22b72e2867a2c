"""Packed runs: values of one wire type, one behind the other, without keys."""
from __future__ import annotations

from array import array
from typing import Any, Iterable, Optional, Union

from ._declared import NO_KEY, RECORD_WORDS, WireType
from ._library import Bytes, Room, Table, accepted, lent, owned, room, size_of, table_room, words
from .answers import Picked, Written, picked
from .messages import with_room

LENGTHS = {WireType.THIRTY_TWO_BIT: 4, WireType.SIXTY_FOUR_BIT: 8}  # a record's length word


def run_count(s: Bytes, type: int) -> int:
    """How many values of a wire type a run has.

    >>> run_count(bytes.fromhex("058000"), WireType.VARINT)
    2
    >>> run_count(bytes.fromhex("058000"), WireType.THIRTY_TWO_BIT)
    Traceback (most recent call last):
    capgauze.refusals.Refused: Truncated (1)
    """
    return accepted("run_count", *lent(s), type)[0]


def run_value(s: Bytes, type: int, number: int) -> Optional[Picked]:
    """The value at a number of a run, counted from 0, or None past the last; the whole run is read.

    >>> run_value(bytes.fromhex("01AA00"), WireType.LENGTH_DELIMITED, 0)
    Picked(type=LENGTH_DELIMITED, value=1, length=1)
    """
    found, kind, value, length = accepted("run_value", *lent(s), type, number)
    return picked(found, kind, value, length)


def read_run(s: Bytes, type: int, table: Table) -> int:
    """Reads the values of a run as records of tag 0, with no key, into a table: how many they are.

    >>> table = words(10)
    >>> read_run(bytes.fromhex("058000"), WireType.VARINT, table)
    2
    >>> table.tolist() == [0, 0, 5, 0, NO_KEY, 0, 0, 128, 0, NO_KEY]
    True
    """
    return accepted("read_run", *lent(s), type, *table_room(table))[0]


def write_run(source: Bytes, table: Table, count: int, type: int, buf: Room) -> Written:
    """Writes the values of the table's first records, all of tag 0 and of the wire type, as a run to the buffer's front.

    NoRoom (5) carries the length needed.

    >>> buf = bytearray(2)
    >>> write_run(b"", array("Q", (0, 0, 5, 0, NO_KEY)), 1, WireType.VARINT, buf), buf.hex()
    (Written(start=0, length=1), '0500')
    """
    return Written(*accepted("write_run", *lent(source), *table_room(table), count, type, *room(buf)))


def unpack(s: Bytes, type: int = WireType.VARINT) -> Union[array[int], list[memoryview]]:
    """All values of a run: an array of numbers, or of LENGTH_DELIMITED a list of payloads, which are parts of the run.

    >>> unpack(bytes.fromhex("058000"))
    array('Q', [5, 128])
    >>> [bytes(part) for part in unpack(bytes.fromhex("02686900"), WireType.LENGTH_DELIMITED)]
    [b'hi', b'']
    """
    run = owned(s)
    table = words(RECORD_WORDS * run_count(run, type))
    read_run(run, type, table)
    if type != WireType.LENGTH_DELIMITED:
        return table[2::RECORD_WORDS]
    view = memoryview(s).cast("B")
    return [view[start:start + length] for start, length in zip(table[2::RECORD_WORDS], table[3::RECORD_WORDS])]


def pack(values: Iterable[Any], type: int = WireType.VARINT) -> bytes:
    """The run of these numbers, or of LENGTH_DELIMITED of these payloads.

    >>> pack([5, 128]).hex()
    '058000'
    >>> pack([5, 2**32], WireType.THIRTY_TWO_BIT)
    Traceback (most recent call last):
    capgauze.refusals.Refused: BadRecord (6): start 1, needed 0
    >>> pack([b"hi", b""], WireType.LENGTH_DELIMITED).hex()
    '02686900'
    """
    payloads, table = bytearray(), array("Q")
    for value in values:
        if type == WireType.LENGTH_DELIMITED:
            table.extend((0, type, len(payloads), size_of(value), NO_KEY))
            payloads += value
        else:
            table.extend((0, type, value, LENGTHS.get(type, 0), NO_KEY))  # type: ignore[call-overload]
    source, count = bytes(payloads), len(table) // RECORD_WORDS
    return with_room(lambda buf: write_run(source, table, count, type, buf))
