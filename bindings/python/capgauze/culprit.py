"""Which fields make a message no sounding. The library answers a number alone, so it is asked again of parts of the frame."""
from __future__ import annotations

from typing import NamedTuple, Optional

from ._declared import Refusal, WireType
from .answers import Record
from .editions import LEVEL_TAG
from .messages import message, records
from .refusals import Refused
from .stream import reader

HEAD = (1, 2)  # the tags of station and launch
NAMES = {1: "station", 2: "launch"}
LEVEL_NAMES = {1: "pressure", 2: "temperature", 3: "dew point depression", 4: "wind speed", 5: "wind direction"}


class Culprit(NamedTuple):
    """The fields that are refused, by the places of their keys in the frame; none, where one is missing."""

    keys: list[int]
    level: Optional[int]  # which level they are in, from 1
    said: str


def _refusal(s: bytes, edition: int) -> Optional[int]:
    thing = reader(edition)(s)
    return thing.number if isinstance(thing, Refused) else None


def _sounding(level: Optional[bytes]) -> bytes:
    """A sounding that has nothing wrong but, perhaps, its level."""
    head = [(1, WireType.VARINT, 1, 0), (2, WireType.VARINT, 0, 0)]
    return message(head if level is None else [*head, (LEVEL_TAG, WireType.LENGTH_DELIMITED, 0, len(level))], level or b"")


def _first(fields: list[Record], number: int, names: dict[int, str]) -> tuple[list[Record], str]:
    """The first tag's fields of which a refusal is true: it stands twice, is of another type or is not there."""
    for tag, name in names.items():
        of_tag = [record for record in fields if record.tag == tag]
        if number == Refusal.REPEATED and len(of_tag) > 1 or number == Refusal.WRONG_WIRE_TYPE and of_tag and of_tag[0].type != WireType.VARINT:
            return of_tag, f"the {name}, tag {tag}"
        if number == Refusal.MISSING_FIELD and not of_tag:
            return [], f"no {name}, tag {tag}"
    return [], ""


def _out_of_range(fields: list[Record], names: dict[int, str], edition: int) -> tuple[list[Record], str]:
    """The first field that is out of its range in a level that has nothing else but, if it is no pressure, one."""
    for record in fields:
        if record.tag not in names or record.type != WireType.VARINT:
            continue
        alone = [(record.tag, WireType.VARINT, record.value, 0)]
        level = message(alone if record.tag == 1 else [(1, WireType.VARINT, 1, 0), *alone])
        if _refusal(_sounding(level), edition) == Refusal.OUT_OF_RANGE:
            return [record], f"the {names[record.tag]}, tag {record.tag}, is {record.value:,}"
    return [], ""


def culprit(frame: bytes, edition: int = 1) -> Optional[Culprit]:
    """What makes a good message no sounding of an edition; None, if it is one, or if a level is refused as a message in itself.

    >>> culprit(bytes.fromhex("040100010400"))
    Culprit(keys=[0, 2], level=None, said='the station, tag 1')
    >>> culprit(bytes.fromhex("040104000505046404D20E"))
    Culprit(keys=[8], level=1, said='level 1: the temperature, tag 2, is 2,002')
    """
    number = _refusal(frame, edition)
    if number is None:
        return None
    fields = records(frame)
    head = [record for record in fields if record.tag in HEAD]
    if _refusal(message(head, frame), edition) is not None:
        found, said = (head[:1], f"the station, tag 1, is {head[0].value:,}") if number == Refusal.OUT_OF_RANGE else _first(head, number, NAMES)
        return Culprit([record.key for record in found], None, said)
    known = {tag: name for tag, name in LEVEL_NAMES.items() if tag <= 3 or edition == 2}
    for at, record in enumerate((record for record in fields if record.tag == LEVEL_TAG), 1):
        if record.type != WireType.LENGTH_DELIMITED:
            return Culprit([record.key], None, f"level {at}, tag {LEVEL_TAG}")
        level = frame[record.value:record.value + record.length]
        if _refusal(_sounding(level), edition) is None:
            continue
        try:
            inner = records(level)
        except Refused:
            return None
        if number == Refusal.OUT_OF_RANGE:
            found, said = _out_of_range(inner, known, edition)
        else:
            found, said = _first(inner, number, known)
        return Culprit([record.value + one.key for one in found], at, f"level {at}: {said}")
    return None
