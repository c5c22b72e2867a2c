"""One sounding: station, launch and levels. A value that no sensor measured is None."""
from __future__ import annotations

from ._declared import GRADED_WORDS, LEVEL_WORDS, Grade
from ._library import Bytes, Table, accepted, lent, most_fields, owned, table_room, words
from .answers import Graded, GradedHead, Head, Level, Sounding, Windy
from .parts import u64_to_signed

LEVEL_TAG = 3
NOT_CANONICAL, HAS_EXTENSIONS, CANONICAL = Grade.NOT_CANONICAL, Grade.HAS_EXTENSIONS, Grade.CANONICAL  # from the least to the most


def read_sounding(s: Bytes, levels: Table) -> Head:
    """Reads a whole sounding into a table of five words a level: its station, its launch and the number of levels.

    >>> levels = words(5)
    >>> read_sounding(bytes.fromhex("04010400050E0464040304FFFEFEFEFEFEFEFEFE"), levels)
    Head(station=1, launch=0, levels=1)
    >>> list(levels) == [100, 1, 3, 0, 2**64 - 1]
    True
    """
    return Head(*accepted("read_sounding", *lent(s), *table_room(levels)))


def most_levels(s: Bytes) -> int:
    """No sounding of these bytes has more levels: one with its pressure takes four bytes."""
    return most_fields(s) // 2


def sounding(s: Bytes) -> Sounding:
    """Reads a whole sounding: its station, its launch and the list of its levels, in degrees; a missing value is None.

    >>> sounding(bytes.fromhex("04010400050E0464040304FFFEFEFEFEFEFEFEFE")).levels
    [Level(pressure_pa=100, temperature_c=-0.2, dewpoint_depression_c=None)]
    """
    s = owned(s)
    table = words(LEVEL_WORDS * most_levels(s))
    station, launch, count = read_sounding(s, table)
    rows = range(0, LEVEL_WORDS * count, LEVEL_WORDS)
    return Sounding(station, launch, [_level(*table[at:at + LEVEL_WORDS]) for at in rows])


def _level(pressure: int, has_temperature: int, temperature: int, has_depression: int, depression: int) -> Level:
    return Level(pressure, u64_to_signed(temperature) / 10 if has_temperature else None, depression / 10 if has_depression else None)


def read_graded(s: Bytes, levels: Table, least: int) -> GradedHead:
    """Reads a whole sounding of the second edition into a table of nine words a level, and takes no field below a grade.

    Its station, its launch, the number of levels and the grade that it reaches.

    >>> levels = words(9)
    >>> read_graded(bytes.fromhex("04010400050604640C46045A"), levels, CANONICAL)
    GradedHead(station=1, launch=0, levels=1, grade=CANONICAL)
    >>> list(levels) == [100, 0, 2**64 - 1, 0, 2**64 - 1, 1, 70, 1, 90]
    True
    """
    station, launch, count, grade = accepted("read_graded", *lent(s), *table_room(levels), least)
    return GradedHead(station, launch, count, Grade(grade))


def graded(s: Bytes, least: int) -> Graded:
    """Reads a whole sounding of the second edition: its station, its launch, the list of its levels and its grade.

    Temperatures are in degrees, the wind's speed in m/s, its direction in degrees; a missing value is None. A sounding with
    a value of all ones that is written out is NotCanonical, one with unknown tags HasExtensions.

    >>> graded(bytes.fromhex("04010400050604640C46045A"), CANONICAL).levels[0]
    Windy(pressure_pa=100, temperature_c=None, dewpoint_depression_c=None, wind_speed_ms=7.0, wind_direction_deg=90)
    >>> iced = bytes.fromhex("04010400050E04640C4604FFFEFEFEFEFEFEFEFE")
    >>> graded(iced, NOT_CANONICAL).levels[0].wind_direction_deg is None
    True
    >>> graded(iced, HAS_EXTENSIONS)
    Traceback (most recent call last):
    capgauze.refusals.Refused: NotCanonical (14)
    >>> graded(bytes.fromhex("040104000801"), CANONICAL)
    Traceback (most recent call last):
    capgauze.refusals.Refused: UnknownField (15)
    """
    s = owned(s)
    table = words(GRADED_WORDS * most_levels(s))
    station, launch, count, grade = read_graded(s, table, least)
    rows = range(0, GRADED_WORDS * count, GRADED_WORDS)
    return Graded(station, launch, [_windy(*table[at:at + GRADED_WORDS]) for at in rows], grade)


def _windy(*level: int) -> Windy:
    has_speed, speed, has_direction, direction = level[LEVEL_WORDS:]
    return Windy(*_level(*level[:LEVEL_WORDS]), speed / 10 if has_speed else None, direction if has_direction else None)
