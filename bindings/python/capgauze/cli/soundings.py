"""capgauze soundings: the levels of each sounding, as CSV, as JSON Lines or as NetCDF."""
from __future__ import annotations

import argparse
import json
from typing import Any, Iterator, Optional, Union

from .._declared import Grade
from .._optional import need
from ..answers import Graded, Sounding, Windy
from ..refusals import Refused
from ..stream import least_of, reader
from .dump import command, files
from .session import Failure, Session, Usage, failed

LEAST = {"canonical": Grade.CANONICAL, "extensions": Grade.HAS_EXTENSIONS, "any": Grade.NOT_CANONICAL}
FIRST = "frame,station,launch,level,pressure_pa,temperature_c,dewpoint_depression_c,"
ROWS = {1: FIRST + "refusal\n", 2: FIRST + "wind_speed_ms,wind_direction_deg,grade,refusal\n"}
DESCRIPTION = """Prints a table (CSV), as the program `soundings` does. A frame has a row for each
level of its sounding, or one row: with no level if it has none, with the name of
the refusal if it is refused, HEX if the line is not hexadecimal. A value that is
missing is an empty cell. In JSON Lines a frame is an object, and a missing value
null; in NetCDF a missing value is NaN."""
EPILOG = """example:
  $ capgauze soundings examples/rows.hex | tail -n 3
  2,10410,1700000120,,,,,
  3,,,,,,,Repeated
  4,,,,,,,HEX"""


def add(commands: Any) -> None:
    made = command(commands, "soundings", "the levels of each sounding as CSV, JSON Lines or NetCDF", DESCRIPTION, EPILOG, run)
    editions(made)
    made.add_argument("--format", choices=("csv", "jsonl", "netcdf"), default="csv", help="csv without it")
    made.add_argument("-o", "--output", metavar="FILE", help="where NetCDF is written to")
    files(made)


def editions(made: argparse.ArgumentParser, usual: int = 1) -> None:
    """The options that name an edition, and which it is without them."""
    made.add_argument("--edition", type=int, choices=(1, 2), default=usual, help=f"{usual} without it; 2 has wind and a grade")
    made.add_argument("--least", choices=LEAST, help="the least grade that is taken, of edition 2; any without it")


def grade_of(asked: argparse.Namespace) -> Optional[Grade]:
    """The least grade that was asked for; bad usage for one of the first edition."""
    least = None if asked.least is None else LEAST[asked.least]
    try:
        least_of(asked.edition, least)
    except ValueError as error:
        raise Usage(f"{error}: --least is for --edition 2") from None
    return least


def cells(thing: Union[Sounding, Graded, Refused], edition: int) -> Iterator[str]:
    """The rows of a frame, each without its number: station, launch, level .. refusal.

    >>> list(cells(Refused(11), 1)), list(cells(Sounding(1, 0, []), 1))
    ([',,,,,,Repeated'], ['1,0,,,,,'])
    """
    behind = 4 if edition == 1 else 7
    if isinstance(thing, Refused):
        yield "," * (behind + 2) + thing.name
        return
    grade = f"{thing.grade.label}," if isinstance(thing, Graded) else ""
    head = f"{thing.station},{thing.launch},"
    if not thing.levels:
        yield head + "," * (4 if edition == 1 else 6) + grade
    for number, level in enumerate(thing.levels, 1):
        wind = ""
        if isinstance(level, Windy):
            wind = f"{_tenths(level.wind_speed_ms)},{'' if level.wind_direction_deg is None else level.wind_direction_deg},"
        yield f"{head}{number},{level[0]},{_tenths(level[1])},{_tenths(level[2])},{wind}{grade}"


def _tenths(value: Optional[float]) -> str:
    return "" if value is None else f"{value:.1f}"


def as_json(number: int, thing: Union[Sounding, Graded, Refused]) -> str:
    """A frame as an object of JSON.

    >>> as_json(3, Refused(11))
    '{"frame": 3, "refusal": "Repeated"}'
    """
    if isinstance(thing, Refused):
        return json.dumps({"frame": number, "refusal": thing.name})
    told: dict[str, Any] = {"frame": number, "station": thing.station, "launch": thing.launch}
    if isinstance(thing, Graded):
        told["grade"] = thing.grade.label
    return json.dumps({**told, "levels": [level._asdict() for level in thing.levels]})


def run(session: Session, asked: argparse.Namespace) -> None:
    least = grade_of(asked)
    if (asked.format == "netcdf") != (asked.output is not None):
        raise Usage("--output FILE is for --format netcdf, which needs it")
    if asked.format == "netcdf":
        write_netcdf(session, asked, least)
        return
    read, frames = reader(asked.edition, least), session.frames(asked.files)
    if asked.format == "csv":
        session.print(ROWS[asked.edition])
    for number, frame in frames:
        thing = read(frame)
        session.count(thing if isinstance(thing, Refused) else None)
        if asked.format == "csv":
            session.print("".join(f"{number},{row}\n" for row in cells(thing, asked.edition)))
        else:
            session.print(as_json(number, thing) + "\n")


def write_netcdf(session: Session, asked: argparse.Namespace, least: Optional[Grade]) -> None:
    """All frames as a file of NetCDF."""
    from ..arrays import dataset
    from ..batches import REFUSALS

    need("netCDF4", "python3-netcdf4", "writing NetCDF")
    made = dataset((frame for _, frame in session.frames(asked.files)), asked.edition, least)
    session.counts["OK"] = made.sizes["sounding"]
    for number in made["refusal"].values:
        session.counts["HEX" if REFUSALS[number] == "HEX" else f"NO {number}"] += 1
    try:
        made.to_netcdf(asked.output)
    except OSError as error:
        failed(asked.output, error)
    except RuntimeError as error:
        raise Failure(f"{asked.output}: {error}") from error
