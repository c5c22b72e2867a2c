"""Corrections over an original. Both are read whole, the original first."""
from __future__ import annotations

from typing import Optional

from ._declared import LIMIT, Supplier
from ._library import Bytes, Room, accepted, call, lent, owned, room

ORIGINAL, CORRECTION = Supplier.ORIGINAL, Supplier.CORRECTION


def corrected_by(original: Bytes, correction: Bytes, tag: int) -> Optional[Supplier]:
    """Which of two messages supplies a tag: CORRECTION, if it has a field of it, else ORIGINAL, or None.

    Repeated, where the supplier has more than one field of the tag.

    >>> original, correction = bytes.fromhex("040704080009"), bytes.fromhex("0805")
    >>> [corrected_by(original, correction, tag) for tag in (1, 2, 3)]
    [ORIGINAL, CORRECTION, None]
    >>> corrected_by(original, b"", 2)
    Traceback (most recent call last):
    capgauze.refusals.Refused: Repeated (11)
    """
    return Supplier(accepted("corrected_by", *lent(original), *lent(correction), tag)[0]) or None


def corrected_part(original: Bytes, correction: Bytes, tag: int) -> memoryview:
    """The value of a tag as a part of the message that supplies it: its bytes behind the key, a payload's without its length.

    The empty part of the original, where corrected_by answers None or is refused.

    >>> original, correction = bytes.fromhex("0480000502C0DE"), bytes.fromhex("0901FF")
    >>> [bytes(corrected_part(original, correction, tag)).hex() for tag in (1, 2, 3)]
    ['8000', 'ff', '']
    """
    both = *lent(original), *lent(correction), tag
    start, length = call("corrected_part", *both)
    _, supplier = call("corrected_by", *both)
    return memoryview(correction if supplier == CORRECTION else original).cast("B")[start:start + length]


def write_corrected(original: Bytes, correction: Bytes, buf: Room) -> int:
    """Writes the original with the correction over it as one message to the buffer's front: its length.

    The correction's fields replace all fields of the original that have their tags. A buffer as long as both together is
    always enough.

    >>> buf = bytearray(9)
    >>> write_corrected(bytes.fromhex("000104020403"), bytes.fromhex("04070008"), buf), buf.hex()
    (8, '000104070008040300')
    """
    return accepted("write_corrected", *lent(original), *lent(correction), *room(buf))[0]


def corrected(original: Bytes, correction: Bytes) -> bytes:
    """The original with the correction over it.

    >>> corrected(bytes.fromhex("00010802"), bytes.fromhex("0405")).hex()
    '000104050402'
    """
    original, correction = owned(original), owned(correction)
    buf = bytearray(min(len(original) + len(correction), LIMIT))
    return bytes(buf[:write_corrected(original, correction, buf)])
