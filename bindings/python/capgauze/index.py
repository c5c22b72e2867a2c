"""An index beside a stored message: three words a tag, or a line of characters."""
from __future__ import annotations

from array import array
from typing import Any, Callable, Iterator, Optional, Union

from ._declared import INDEX_WORDS
from ._library import Bytes, Room, Table, accepted, call, lent, most_fields, owned, room, table_room, words
from .answers import Entry, Picked, picked


def make_index(s: Bytes, index: Table) -> int:
    """Makes the index of a message, three words a tag: how many tags it has.

    >>> index = words(6)
    >>> make_index(bytes.fromhex("040500060801"), index)
    2
    >>> Entry(*index[3:])
    Entry(tag=3, place=4, count=1)
    """
    return accepted("make_index", *lent(s), *table_room(index))[0]


def index_fits(s: Bytes, index: Table, tags: int) -> bool:
    """Whether the index's first entries are those that make_index makes of the message, no more and no less.

    >>> index_fits(bytes.fromhex("0405"), array("Q", (1, 0, 1)), 1)
    True
    """
    return bool(call("index_fits", *lent(s), *table_room(index), tags))


def pick_indexed(s: Bytes, index: Table, tags: int, tag: int) -> Optional[Picked]:
    """The only field of the tag through an index, or None: what pick answers, if the index was made from this message.

    >>> pick_indexed(bytes.fromhex("040500060801"), array("Q", (1, 0, 2, 3, 4, 1)), 2, 3)
    Picked(type=VARINT, value=1, length=0)
    >>> pick_indexed(bytes.fromhex("0405"), array("Q", (1, 0, 2, 3, 4, 1)), 2, 3)
    Traceback (most recent call last):
    capgauze.refusals.Refused: BadIndex (12)
    """
    found, type, value, length = accepted("pick_indexed", *lent(s), *table_room(index), tags, tag)
    return picked(found, type, value, length)


def write_line(index: Table, tags: int, line: Room) -> int:
    """Writes an index as a line of 2 + 20 * tags characters, edition 02, to the buffer's front: its length.

    >>> line = bytearray(22)
    >>> write_line(array("Q", (7, 6699, 3)), 1, line), bytes(line)
    (22, b'0200000007001A2B000003')
    """
    return accepted("write_line", *table_room(index), tags, *room(line))[0]


def read_line(line: Bytes, message_len: int, index: Table) -> int:
    """Reads a line as an index, three words a tag, beside a message of a length: how many tags it has.

    Edition 02 is read beside any message, edition 01 beside one of up to 65,535 bytes.

    >>> read_line(b"010000000A00040001", 65_535, words(3))
    1
    >>> read_line(b"010000000A00040001", 65_536, words(3))
    Traceback (most recent call last):
    capgauze.refusals.Refused: BadIndex (12)
    """
    return accepted("read_line", *lent(line), message_len, *table_room(index))[0]


class Index:
    """The index of a message, made once and kept beside it; its words are its own.

    >>> message = bytes.fromhex("040500060801")
    >>> index = Index(message)
    >>> index.pick(message, 3)
    Picked(type=VARINT, value=1, length=0)
    >>> index.line()
    '020000000100000000000200000003000004000001'
    >>> Index.of_line(index.line(), len(message)).fits(message)
    True
    >>> list(index)
    [Entry(tag=1, place=0, count=2), Entry(tag=3, place=4, count=1)]
    """

    words: array[int]

    def __init__(self, s: Bytes) -> None:
        s = owned(s)
        self._fill(most_fields(s), make_index, s)

    @classmethod
    def of_line(cls, line: Union[str, Bytes], message_len: int) -> Index:
        """The index of a line, which is a text or bytes, without its end, beside a message of a length."""
        line = line.encode() if isinstance(line, str) else owned(line)
        index = cls.__new__(cls)
        index._fill(len(line) // 16, read_line, line, message_len)  # the digits of an entry in edition 01, the shorter one
        return index

    def _fill(self, most: int, fill: Callable[..., int], *asked: Any) -> None:
        table = words(INDEX_WORDS * most)
        self.words = table[:INDEX_WORDS * fill(*asked, table)]

    def __len__(self) -> int:
        return len(self.words) // INDEX_WORDS

    def __iter__(self) -> Iterator[Entry]:
        rows = range(0, len(self.words), INDEX_WORDS)
        return (Entry(*self.words[at:at + INDEX_WORDS]) for at in rows)

    def __eq__(self, other: object) -> bool:
        return isinstance(other, Index) and self.words == other.words

    __hash__ = None  # type: ignore[assignment]  # its words may be written

    def fits(self, s: Bytes) -> bool:
        """Whether it is the index of this message."""
        return index_fits(s, self.words, len(self))

    def pick(self, s: Bytes, tag: int) -> Optional[Picked]:
        """The only field of the tag, or None, as pick_indexed answers it."""
        return pick_indexed(s, self.words, len(self), tag)

    def line(self) -> str:
        """Its line, of edition 02, without an end."""
        line = bytearray(2 + 20 * len(self))
        write_line(self.words, len(self), line)
        return line.decode()
