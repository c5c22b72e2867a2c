"""capgauze pick, index and correct."""
from __future__ import annotations

import argparse
from typing import Any, Optional

from .._declared import Refusal, WireType
from ..answers import Picked, Record
from ..corrections import corrected
from ..editions import LEVEL_TAG
from ..index import Index
from ..messages import message, payload_of, pick, pick_at, records
from ..refusals import Refused
from ..stream import Frame
from .dump import command, field_line, files
from .session import Failure, Session, verdict_line, verdict_of

PICK = """Prints the only field of a tag of each frame, in the words of the dump.
  frame F tag type value   the field
  frame NONE               the frame has no field of the tag
  frame NO number          refused: 11 is Repeated, more fields than one
  frame HEX                not hexadecimal"""
PICK_EXAMPLE = """example:
  $ capgauze pick 1 examples/two-sensors.hex
  1 F 1 0 00000000000028AA"""
INDEX = """Prints the index of each frame, which tells where the fields of a tag begin.
  frame X tag place count  for each tag: the place of its first key, its fields
  frame OK tags line       how many tags, and the index as a line to be stored
  frame NO number          refused;  frame HEX  not hexadecimal"""
INDEX_EXAMPLE = """example:
  $ echo 04050006 | capgauze index
  1 X 1 0 2
  1 OK 1 0200000001000000000002"""
CORRECT = """Prints each frame of ORIGINAL with the frame of the same number of CORRECTION
over it, as hexadecimal: a correction's fields replace all fields of their tags.
An empty line is a correction that changes nothing. A frame or a correction that
is refused has the line `NO number`, or HEX, which no reader takes for a frame."""
CORRECT_EXAMPLE = """example, the second level of a sounding (README has more of it):
  $ sed -n 1p examples/corrected.hex >original
  $ sed -n 2p examples/corrected.hex >correction
  $ capgauze correct --level 2 original correction | capgauze soundings"""


def add(commands: Any) -> None:
    made = command(commands, "pick", "the field of a tag of each frame", PICK, PICK_EXAMPLE, run_pick)
    made.add_argument("--all", action="store_true", help="all fields of the tag, where there may be several")
    made.add_argument("tag", type=_tag, metavar="TAG", help="0 to 4294967295")
    files(made)
    files(command(commands, "index", "the index of each frame", INDEX, INDEX_EXAMPLE, run_index))
    made = command(commands, "correct", "frames with corrections over them", CORRECT, CORRECT_EXAMPLE, run_correct)
    made.add_argument("--level", type=_from_one, metavar="N", help="the corrections are for the Nth level of a sounding, from 1")
    made.add_argument("original", metavar="ORIGINAL", help="lines of hexadecimal; - is the standard input")
    made.add_argument("correction", metavar="CORRECTION", help="the same, a line for each of ORIGINAL")


def _tag(text: str) -> int:
    number = int(text)
    if not 0 <= number < 2**32:
        raise argparse.ArgumentTypeError(f"there is no tag {text}: 0 to 4294967295")
    return number


def _from_one(text: str) -> int:
    number = int(text)
    if number < 1:
        raise argparse.ArgumentTypeError("levels are counted from 1")
    return number


_tag.__name__, _from_one.__name__ = "tag", "number"  # as argparse says them


def run_pick(session: Session, asked: argparse.Namespace) -> None:
    def read(frame: bytes) -> list[Optional[Picked]]:
        if not asked.all:
            return [pick(frame, asked.tag)]
        return [pick_at(frame, asked.tag, at).picked for at in range(pick_at(frame, asked.tag, 0).count)]

    for number, frame, found in session.accepted(asked.files, read, verdict_line):
        fields = [field_line(number, frame, Record(asked.tag, *field)) for field in found if field]
        session.print("".join(fields) or f"{number} NONE\n")


def run_index(session: Session, asked: argparse.Namespace) -> None:
    for number, _, index in session.accepted(asked.files, Index, verdict_line):
        entries = "".join(f"{number} X {entry.tag} {entry.place} {entry.count}\n" for entry in index)
        session.print(f"{entries}{number} OK {len(index)} {index.line()}\n")


def run_correct(session: Session, asked: argparse.Namespace) -> None:
    if asked.original == asked.correction == "-":
        raise Failure("standard input: it cannot be both ORIGINAL and CORRECTION")
    originals, corrections = session.frames([asked.original]), session.frames([asked.correction])
    while True:
        original, correction = next(originals, None), next(corrections, None)
        if original is None or correction is None:
            break
        try:
            session.print(over(original[1], correction[1], asked.level).hex().upper() + "\n")
        except Refused as refused:
            session.print(verdict_of(refused) + "\n")
    if original or correction:
        short = asked.correction if original else asked.original
        raise Failure(f"{'standard input' if short == '-' else short}: it has fewer frames than the other file")


def over(original: Frame, correction: Frame, level: Optional[int]) -> bytes:
    """A correction over a frame, or over a level of it; Refused, where either is or there is no such level."""
    for frame in (original, correction):
        if isinstance(frame, Refused):
            raise frame
    assert isinstance(original, bytes) and isinstance(correction, bytes)
    if level is None:
        return corrected(original, correction)
    found = records(original)
    at = [place for place, record in enumerate(found) if record.tag == LEVEL_TAG]
    if level > len(at):
        raise Refused(Refusal.MISSING_FIELD)
    part = corrected(payload_of(original, found[at[level - 1]]), correction)
    found[at[level - 1]] = Record(LEVEL_TAG, WireType.LENGTH_DELIMITED, len(original), len(part))
    return message(found, original + part)
