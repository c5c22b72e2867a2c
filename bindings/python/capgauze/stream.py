"""The frames of a file, a pipe or bytes, and their soundings. None is dropped: a refused frame comes as its refusal, in its place."""
from __future__ import annotations

import binascii
import io
import os
from typing import Any, BinaryIO, Callable, Iterable, Iterator, Literal, Optional, Union, overload

from ._declared import LIMIT, Grade, Refusal
from ._library import owned
from .answers import Graded, Sounding
from .editions import graded, sounding
from .refusals import NotHexadecimal, Refused

Frame = Union[bytes, Refused]
# A path; a file that was opened for reading bytes; bytes as such a file has them; or frames, each as its own bytes.
Source = Union[str, "os.PathLike[str]", bytes, bytearray, memoryview, BinaryIO, Iterable[Any]]
MOST_CHARACTERS = 2 * LIMIT  # of a line; a longer one is TooLong, whatever it has
BLOCK = 1 << 20


def lines(blocks: Iterable[bytes]) -> Iterator[Optional[bytes]]:
    """The lines of a file that comes in blocks, without LF; None for one of more than MOST_CHARACTERS. The last may lack its LF.

    >>> list(lines([b"04", b"01\\n\\n0", b"4"]))
    [b'0401', b'', b'04']
    """
    pieces: list[bytes] = []
    size = 0
    for block in blocks:
        *ended, begun = block.split(b"\n")
        for part in ended:
            if size:
                size += len(part)
                part = b"".join((*pieces, part)) if size <= MOST_CHARACTERS else part
                pieces, size, over = [], 0, size > MOST_CHARACTERS
            else:
                over = len(part) > MOST_CHARACTERS
            yield None if over else part
        size += len(begun)
        if size > MOST_CHARACTERS:
            pieces = []  # the rest of the line is counted, and not kept
        elif begun:
            pieces.append(begun)
    if size:
        yield b"".join(pieces) if size <= MOST_CHARACTERS else None


def frame_of(line: Optional[bytes]) -> Frame:
    """The frame of a line, or its refusal.

    >>> frame_of(b"0401"), frame_of(b"04 1"), frame_of(None)
    (b'\\x04\\x01', NotHexadecimal('HEX: the line is not hexadecimal'), Refused('TooLong (4)'))
    """
    if line is None:
        return Refused(Refusal.TOO_LONG)
    try:
        return binascii.a2b_hex(line)
    except binascii.Error:
        return NotHexadecimal()


def blocks_of(file: Any) -> Iterator[bytes]:
    """What a file has, in blocks, each as soon as it is there."""
    read = getattr(file, "read1", file.read)
    while block := read(BLOCK):
        if not isinstance(block, bytes):
            raise TypeError("the file was not opened for reading bytes")
        yield block


def frames(source: Source) -> Iterator[Frame]:
    """The frames of a source in their order: bytes, or a refusal where a line is no frame.

    A source is a path, a file opened for reading bytes, or bytes as such a file has them: lines of hexadecimal, a frame a line.
    Anything else is gone through: each thing is a frame, as its own bytes.

    >>> list(frames(b"0401\\n0g\\n"))
    [b'\\x04\\x01', NotHexadecimal('HEX: the line is not hexadecimal')]
    >>> list(frames([b"\\x04\\x01"]))
    [b'\\x04\\x01']
    """
    if isinstance(source, (str, os.PathLike)):
        return _of_path(source)
    if isinstance(source, (bytes, bytearray, memoryview)):
        view = memoryview(source).cast("B")
        return map(frame_of, lines(bytes(view[at:at + BLOCK]) for at in range(0, len(view), BLOCK)))
    if isinstance(source, io.TextIOWrapper):
        source = source.buffer
    if hasattr(source, "read"):
        return map(frame_of, lines(blocks_of(source)))
    each: Iterable[Any] = source
    return (frame if isinstance(frame, Refused) else owned(frame) for frame in each)


def _of_path(path: Union[str, os.PathLike[str]]) -> Iterator[Frame]:
    with open(path, "rb") as file:
        yield from map(frame_of, lines(blocks_of(file)))


def least_of(edition: int, least: Optional[int]) -> Grade:
    """The least grade that is taken; ValueError for an edition or a grade that there is not."""
    if edition not in (1, 2):
        raise ValueError(f"there is no edition {edition}: 1 or 2")
    if edition == 1 and least is not None:
        raise ValueError("the first edition has no grades")
    return Grade.NOT_CANONICAL if least is None else Grade(least)


@overload
def soundings(source: Source, edition: Literal[1] = 1, least: None = None) -> Iterator[Union[Sounding, Refused]]: ...
@overload
def soundings(source: Source, edition: Literal[2], least: Optional[int] = None) -> Iterator[Union[Graded, Refused]]: ...


def soundings(source: Source, edition: int = 1, least: Optional[int] = None) -> Iterator[Union[Sounding, Graded, Refused]]:
    """The soundings of a file, a pipe or bytes (`frames` says what a source is), one for each frame, in their order.

    A frame that is refused comes as its refusal, and so does a line that is no hexadecimal. Of the second edition `least` is the
    least grade that is taken; without it every grade is.

    >>> for found in soundings(b"04010400050404640413\\n04\\n0g\\n"):
    ...     print(found)
    Sounding(station=1, launch=0, levels=[Level(pressure_pa=100, temperature_c=-1.0, dewpoint_depression_c=None)])
    Truncated (1)
    HEX: the line is not hexadecimal
    """
    return map(reader(edition, least), frames(source))


def reader(edition: int = 1, least: Optional[int] = None) -> Callable[[Frame], Any]:
    """What makes of a frame its sounding, or its refusal.

    >>> reader()(b"\\x04")
    Refused('Truncated (1)')
    """
    taken = least_of(edition, least)

    def read(frame: Frame) -> Union[Sounding, Graded, Refused]:
        try:
            if isinstance(frame, Refused):
                return frame
            return sounding(frame) if edition == 1 else graded(frame, taken)
        except Refused as refused:
            return refused.with_traceback(None)

    return read
