"""What accepted calls answer; a record's words are a table's."""
from __future__ import annotations

from datetime import datetime, timezone
from typing import NamedTuple, Optional

from ._declared import NO_KEY, Grade, WireType

_TYPES = tuple(WireType)


def wire_type(number: int) -> int:
    """A wire type by its name, or a number that is none."""
    return _TYPES[number] if number < len(_TYPES) else number


class Record(NamedTuple):
    tag: int
    type: int
    value: int  # or where in the message its payload starts
    length: int
    key: int = NO_KEY


class Parts(NamedTuple):
    key: int
    length: Optional[int]
    value: int
    end: int


class Varint(NamedTuple):
    value: int
    place: int


class Key(NamedTuple):
    tag: int
    type: int
    place: int


class Value(NamedTuple):
    value: int
    length: int
    place: int


class Step(NamedTuple):
    tag: int
    type: int
    value: int
    length: int
    place: int


class Read(NamedTuple):
    place: int
    count: int  # type: ignore[assignment]


class Written(NamedTuple):
    start: int
    length: int


class Picked(NamedTuple):
    type: int
    value: int
    length: int


class Several(NamedTuple):
    count: int  # type: ignore[assignment]
    picked: Optional[Picked]


class Early(NamedTuple):
    keys: int
    picked: Optional[Picked]


class Entry(NamedTuple):
    tag: int
    place: int
    count: int  # type: ignore[assignment]


class Head(NamedTuple):
    station: int
    launch: int
    levels: int  # how many


class GradedHead(NamedTuple):
    station: int
    launch: int
    levels: int  # how many
    grade: Grade


class Level(NamedTuple):
    pressure_pa: int
    temperature_c: Optional[float]
    dewpoint_depression_c: Optional[float]


class Windy(NamedTuple):
    pressure_pa: int
    temperature_c: Optional[float]
    dewpoint_depression_c: Optional[float]
    wind_speed_ms: Optional[float]
    wind_direction_deg: Optional[int]


class Sounding(NamedTuple):
    station: int
    launch: int  # in seconds since 1970
    levels: list[Level]


class Graded(NamedTuple):
    station: int
    launch: int  # in seconds since 1970
    levels: list[Windy]
    grade: Grade


def picked(found: int, type: int, value: int, length: int) -> Optional[Picked]:
    """What a lookup found, or None."""
    return Picked(wire_type(type), value, length) if found else None


def launch_text(launch: int) -> str:
    """A launch in words.

    >>> launch_text(1700000060)
    '2023-11-14 22:14:20 UTC'
    """
    if launch >= 2**33:
        return f"{launch} s"
    return datetime.fromtimestamp(launch, timezone.utc).strftime("%Y-%m-%d %H:%M:%S UTC")
