"""Numbers, and one part of a message: varints, keys, values, steps."""
from __future__ import annotations

from typing import Optional

from ._library import Bytes, Room, accepted, call, lent, room, size_of
from .answers import Key, Step, Value, Varint, wire_type


def encoded_len_varint(value: int) -> int:
    """How many bytes the varint takes: 1 to 9.

    >>> encoded_len_varint(127), encoded_len_varint(128)
    (1, 2)
    """
    return int(call("encoded_len_varint", value))


def i64_to_unsigned(value: int) -> int:
    """The signed mapping: v >= 0 gives 2v, v < 0 gives -2v - 1.

    >>> [i64_to_unsigned(v) for v in (0, -1, 1, -1500)]
    [0, 1, 2, 2999]
    """
    return int(call("i64_to_unsigned", value))


def u64_to_signed(value: int) -> int:
    """The signed mapping back.

    >>> u64_to_signed(2999)
    -1500
    """
    return int(call("u64_to_signed", value))


def decode_varint(s: Bytes, at: int = 0) -> Varint:
    """The varint at a place: its value and the place after it.

    >>> decode_varint(bytes.fromhex("8000"))
    Varint(value=128, place=2)
    """
    return Varint(*accepted("decode_varint", *lent(s), at))


def decode_varint_capped(s: Bytes, at: int, end: int) -> Varint:
    """The same under an end; the place after it may lie past the end.

    >>> decode_varint_capped(bytes.fromhex("8000"), 0, 1)
    Varint(value=128, place=2)
    """
    return Varint(*accepted("decode_varint_capped", *lent(s), at, end))


def up_to(s: Bytes, end: Optional[int]) -> int:
    """The end that is meant."""
    return size_of(s) if end is None else end


def decode_key(s: Bytes, at: int = 0, end: Optional[int] = None, last: int = 0) -> Key:
    """The key at a place, after the tag `last`.

    >>> decode_key(bytes.fromhex("0902C0DE"))
    Key(tag=2, type=LENGTH_DELIMITED, place=1)
    """
    tag, type, place = accepted("decode_key", *lent(s), at, up_to(s, end), last)
    return Key(tag, wire_type(type), place)


def decode_value(s: Bytes, at: int, end: int, type: int) -> Value:
    """The value of a wire type at a place, as a record's value and length.

    >>> decode_value(bytes.fromhex("0902C0DE"), 1, 4, 1)
    Value(value=2, length=2, place=4)
    """
    return Value(*accepted("decode_value", *lent(s), at, end, type))


def skip_field(s: Bytes, at: int, end: int, type: int) -> int:
    """Passes over a value and the fields of the same tag behind it: the place reached.

    >>> skip_field(bytes.fromhex("0500060407"), 0, 5, 0)
    3
    """
    return accepted("skip_field", *lent(s), at, end, type)[0]


def step_at(s: Bytes, at: int = 0, end: Optional[int] = None, last: int = 0) -> Optional[Step]:
    """One step of a message: a field, or None at the end.

    >>> step_at(bytes.fromhex("0405"))
    Step(tag=1, type=VARINT, value=5, length=0, place=2)
    >>> step_at(bytes.fromhex("0405"), at=2, last=1) is None
    True
    """
    found, tag, type, *behind = accepted("step_at", *lent(s), at, up_to(s, end), last)
    return Step(tag, wire_type(type), *behind) if found else None


def encode_varint(value: int, buf: Room) -> int:
    """Writes a varint to the buffer's front: its length.

    >>> buf = bytearray(3)
    >>> encode_varint(128, buf), buf.hex()
    (2, '800000')
    """
    return accepted("encode_varint", value, *room(buf))[0]


def prepend_varint(value: int, buf: Room) -> int:
    """Writes a varint to the buffer's end: its length.

    >>> buf = bytearray(3)
    >>> prepend_varint(128, buf), buf.hex()
    (2, '008000')
    """
    return accepted("prepend_varint", value, *room(buf))[0]


def encode_key(last: int, tag: int, type: int, buf: Room) -> int:
    """Writes the key of `tag`, after the tag `last`, to the buffer's front: its length.

    >>> buf = bytearray(2)
    >>> encode_key(3, 5, 1, buf), buf.hex()
    (1, '0900')
    """
    return accepted("encode_key", last, tag, type, *room(buf))[0]


def prepend_key(last: int, tag: int, type: int, buf: Room) -> int:
    """Writes it to the buffer's end.

    >>> buf = bytearray(2)
    >>> prepend_key(3, 5, 1, buf), buf.hex()
    (1, '0009')
    """
    return accepted("prepend_key", last, tag, type, *room(buf))[0]


def key_len(last: int, tag: int) -> int:
    """The length of such a key, whatever its type.

    >>> key_len(0, 31), key_len(0, 32)
    (1, 2)
    """
    return accepted("key_len", last, tag)[0]
