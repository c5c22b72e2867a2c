"""capgauze dump: the fields of each frame, or why it has none."""
from __future__ import annotations

import argparse
from typing import Any

from .._declared import WireType
from ..answers import Record
from ..messages import records
from ..refusals import Refused
from .session import Session

DESCRIPTION = """Prints the fields of each frame, or why it has none, as the program `dump` does.
  frame F tag type value   type: 0 a number, 1 bytes, 2 four bytes, 3 eight
  frame OK fields bytes    accepted
  frame NO number place failing bytes
                           refused: the key's place, where the read that failed
                           began, and the bytes of a varint it looked at
  frame HEX                not hexadecimal"""
EPILOG = """example:
  $ echo 0401 | capgauze dump
  1 F 1 0 0000000000000001
  1 OK 1 2"""


def command(commands: Any, name: str, about: str, description: str, epilog: str, run: Any) -> argparse.ArgumentParser:
    """A command's parser."""
    made: argparse.ArgumentParser = commands.add_parser(name, help=about, description=description, epilog=epilog, allow_abbrev=False,
                                                        formatter_class=argparse.RawDescriptionHelpFormatter)
    made.set_defaults(run=run)
    return made


def files(made: argparse.ArgumentParser, counted: bool = True) -> None:
    """The files that are read, and whether the frames can be counted."""
    made.add_argument("files", nargs="*", metavar="FILE", help="lines of hexadecimal, a frame a line; none, or -, is the standard input")
    if counted:
        made.add_argument("--count", action="store_true", help="say at the end on standard error how many frames there were")


def add(commands: Any) -> None:
    files(command(commands, "dump", "the fields of each frame", DESCRIPTION, EPILOG, run))


def value_text(frame: bytes, record: Record) -> str:
    """A field's value as the dump has it: a number in 16 digits, else its bytes as they stand on the wire."""
    if record.type == WireType.VARINT:
        return f"{record.value:016X}"
    if record.type == WireType.LENGTH_DELIMITED:
        return frame[record.value:record.value + record.length].hex().upper() or "-"
    return record.value.to_bytes(record.length, "little").hex().upper()


def field_line(number: int, frame: bytes, record: Record) -> str:
    """A field as a line of the dump."""
    return f"{number} F {record.tag} {record.type} {value_text(frame, record)}\n"


def refused_line(number: int, refused: Refused) -> str:
    """A refused frame as a line of the dump."""
    if refused.number is None:
        return f"{number} {refused.name}\n"
    return f"{number} NO {refused.number} " + " ".join(str(refused.carried.get(word, 0)) for word in ("place", "failing", "bytes")) + "\n"


def run(session: Session, asked: argparse.Namespace) -> None:
    for number, frame, found in session.accepted(asked.files, records, refused_line):
        session.print("".join(field_line(number, frame, record) for record in found) + f"{number} OK {len(found)} {len(frame)}\n")
