"""Soundings in batches of words, for numpy: one call of the library for each sounding, into one buffer that is used again."""
from __future__ import annotations

from array import array
from typing import TYPE_CHECKING, Any, Iterable, Iterator, NamedTuple

from ._declared import GRADED_WORDS, LEVEL_WORDS, LIMIT, Grade
from ._library import ffi, lib
from ._optional import need
from .stream import Frame
from .refusals import NAMES, UNKNOWN, Refused

if TYPE_CHECKING:
    import numpy as np

REFUSALS = (*NAMES, "HEX", UNKNOWN)  # by the number that a batch has for each
HEX = len(NAMES)
ROOM = 1 << 14  # levels; a longer sounding has a buffer of its own


class Batch(NamedTuple):
    """So many frames, a number each, and the words of all their levels."""

    station: np.ndarray[Any, Any]
    launch: np.ndarray[Any, Any]
    levels: np.ndarray[Any, Any]  # how many; of a refused frame 0
    grade: np.ndarray[Any, Any]
    refusal: np.ndarray[Any, Any]  # 0, or its number in REFUSALS; station, launch and grade are then no answers
    words: np.ndarray[Any, Any]  # a row for each level; the next batch is written over it


def batches(frames: Iterable[Frame], edition: int, least: Grade) -> Iterator[Batch]:
    """The frames in their order, in batches; none is empty."""
    np = need("numpy", "python3-numpy", "an array of levels")
    width = LEVEL_WORDS if edition == 1 else GRADED_WORDS
    read_sounding, read_graded = lib.capgauze_read_sounding, lib.capgauze_read_graded
    buffer = np.empty(ROOM * width, np.uint64)
    start, used = ffi.cast("uint64_t *", ffi.from_buffer(buffer)), 0
    heads = array("Q")  # five words a frame, as a batch has them

    def batch() -> Batch:
        told = np.frombuffer(heads, np.uint64).reshape(-1, 5).T
        return Batch(told[0], told[1], told[2], told[3], told[4].astype(np.uint8), buffer[:used].reshape(-1, width))

    for frame in frames:
        if isinstance(frame, Refused):
            heads.extend((0, 0, 0, 0, HEX if frame.number is None else frame.number))
            continue
        size = len(frame)
        most = min(size, LIMIT) // 4 * width  # a level with its pressure takes four bytes
        if used + most > len(buffer) or len(heads) >= 5 * ROOM:
            if heads:
                yield batch()
            heads, used = array("Q"), 0
            if most > len(buffer):
                buffer = np.empty(most, np.uint64)
                start = ffi.cast("uint64_t *", ffi.from_buffer(buffer))
        if edition == 1:
            answer = read_sounding(frame, size, start + used, len(buffer) - used)
            grade = 0
        else:
            answer = read_graded(frame, size, start + used, len(buffer) - used, least)
            grade = answer.grade
        number = answer.number
        if number:
            heads.extend((0, 0, 0, 0, number if number < HEX else HEX + 1))
        else:
            levels = answer.levels
            used += levels * width
            heads.extend((answer.station, answer.launch, levels, grade, 0))
    if heads:
        yield batch()
