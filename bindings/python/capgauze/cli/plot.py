"""capgauze plot: a sounding drawn."""
from __future__ import annotations

import argparse
import os
from typing import Any

from ..refusals import Refused
from ..stream import reader
from .dump import command, files
from .session import Failure, Session, failed
from .soundings import editions, grade_of

DESCRIPTION = """Draws a sounding: temperature and dew point against pressure, wind barbs where
there are winds. No line is drawn across a level that no sensor measured; such a
gap is hatched and named, so that nobody takes it for dry air."""
EPILOG = """example:
  $ capgauze plot examples/iced.hex -o sounding.svg"""


def add(commands: Any) -> None:
    made = command(commands, "plot", "a sounding drawn", DESCRIPTION, EPILOG, run)
    made.add_argument("-o", "--output", metavar="PICTURE", required=True, help="an .svg, .png or .pdf")
    made.add_argument("--frame", type=int, default=1, metavar="N", help="which frame, counted from 1; the first without it")
    editions(made, usual=2)
    files(made, counted=False)


def run(session: Session, asked: argparse.Namespace) -> None:
    least = grade_of(asked)
    read, name = reader(asked.edition, least), (asked.files or ["-"])[-1]
    for number, frame in session.frames(asked.files):
        if number == asked.frame:
            break
    else:
        raise Failure(f"{'standard input' if name == '-' else name}: there is no frame {asked.frame}")
    thing = read(frame)
    if isinstance(thing, Refused):
        first = asked.edition == 2 and not isinstance(reader(1)(frame), Refused)
        raise Failure(f"frame {number} is refused: {thing}" + ("; --edition 1 takes it, without its wind" if first else ""))
    save(thing, asked.output)


def save(thing: Any, path: str) -> None:
    """Draws a sounding to a file, the same bytes each time."""
    from ..plot import STYLE, draw

    figure = draw(thing)
    import matplotlib

    kind = os.path.splitext(path)[1].lstrip(".").lower()
    dates = {"svg": {"Date": None}, "pdf": {"CreationDate": None}}
    try:
        with matplotlib.rc_context(STYLE):
            figure.savefig(path, metadata=dates.get(kind))
    except OSError as error:
        failed(path, error)
    except ValueError as error:
        raise Failure(f"{path}: {error}") from error
