"""capgauze explain: a frame as hexadecimal, with its fields marked, and why it is refused."""
from __future__ import annotations

import argparse
import os
from typing import Any

from ..explain import explain, plain
from .dump import command, files
from .session import Session

DESCRIPTION = """Prints each frame as hexadecimal. Below the bytes stands what they are: K a key,
with its tag below it, L a length, V a value, ! what could not be read. Then the
fields, and why the frame is refused, in a sentence. Colours are for a terminal;
NO_COLOR switches them off."""
EPILOG = """example:
  $ echo 04070080 | capgauze explain"""
COLOURS = {"": "0", "key": "36", "length": "33", "value": "32", "bad": "1;31"}


def add(commands: Any) -> None:
    made = command(commands, "explain", "each frame as hexadecimal, with its fields marked", DESCRIPTION, EPILOG, run)
    made.add_argument("--sounding", type=int, choices=(1, 2), metavar="EDITION",
                      help="explain it as a sounding of edition 1 or 2 too: the fields of its levels, and what they mean")
    made.add_argument("--frame", type=int, metavar="N", help="this frame alone, counted from 1")
    files(made, counted=False)


def coloured(text: str, kind: str) -> str:
    """A text in its colour."""
    return f"\x1b[{COLOURS[kind]}m{text}\x1b[0m"


def run(session: Session, asked: argparse.Namespace) -> None:
    colour = os.isatty(1) and not os.environ.get("NO_COLOR") and os.environ.get("TERM") != "dumb"
    for number, frame in session.frames(asked.files):
        if asked.frame in (None, number):
            session.print(explain(number, frame, coloured if colour else plain, asked.sounding) + ("" if asked.frame else "\n"))
