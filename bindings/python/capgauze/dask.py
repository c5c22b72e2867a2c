"""Archives that outgrow one machine: files of frames as one DataFrame of dask, cut at line ends, for `distributed`.

    >>> table = read_soundings("examples/*.hex")  # doctest: +SKIP
    >>> table.groupby("station").temperature_c.mean().compute()  # doctest: +SKIP

Its rows are those of capgauze.dataframe on all files, one behind the other; frames are counted through. The files are read twice: once
to count lines, so that every frame has its number, and once to read them.
"""
from __future__ import annotations

import glob
import os
from itertools import accumulate
from typing import TYPE_CHECKING, Any, BinaryIO, Iterator, NamedTuple, Optional, Sequence, Union

from ._optional import need
from .arrays import dataframe
from .stream import BLOCK, frame_of, least_of, lines

if TYPE_CHECKING:
    import pandas as pd


class Part(NamedTuple):
    """The lines of a file that begin at a place from start up to end."""

    path: str
    start: int
    end: int


def parts_of(paths: Union[str, os.PathLike[str], Sequence[Any]], blocksize: Union[int, str, None]) -> list[Part]:
    """All files in parts of so many bytes; a name may have the signs * and ?, which stand for files in the order of their names."""
    size = need("dask.utils", "python3-dask", "an archive").parse_bytes(blocksize) if blocksize is not None else 2**63
    if size < 1:
        raise ValueError(f"no block of {size} bytes")
    names = [os.fspath(path) for path in ([paths] if isinstance(paths, (str, os.PathLike)) else paths)]
    out: list[Part] = []
    for name in names:
        found = sorted(glob.glob(name)) if glob.has_magic(name) else [name]
        if not found:
            raise FileNotFoundError(f"no file is called {name}")
        for path in found:
            length = os.stat(path).st_size
            out += [Part(os.path.abspath(path), start, min(start + size, length)) for start in range(0, length, size)]
    return out


def _blocks(file: BinaryIO, length: int) -> Iterator[bytes]:
    while length > 0 and (block := file.read(min(BLOCK, length))):
        length -= len(block)
        yield block


def lines_of(part: Part) -> Iterator[bytes]:
    """The bytes of a part's lines, in blocks: the last line may end behind the part, and the first begin in it."""
    with open(part.path, "rb") as file:
        begun = part.start == 0
        file.seek(max(part.start - 1, 0))
        wanted = part.end - file.tell()
        ended = True  # whether the last byte was LF
        for block in _blocks(file, wanted):
            if not begun:
                found = block.find(b"\n")
                if found < 0:
                    continue
                block, begun = block[found + 1:], True
            if block:
                ended = block.endswith(b"\n")
                yield block
        while not ended and (block := file.read(BLOCK)):
            found = block.find(b"\n")
            ended = found >= 0
            yield block[:found] if ended else block


def count_of(part: Part) -> int:
    """How many lines begin in a part."""
    with open(part.path, "rb") as file:
        file.seek(max(part.start - 1, 0))
        return (part.start == 0) + sum(block.count(b"\n") for block in _blocks(file, part.end - 1 - file.tell()))


def firsts_of(counts: Sequence[int]) -> list[int]:
    """The number of the first frame of each part.

    >>> firsts_of([2, 0, 5])
    [1, 3, 3]
    """
    return list(accumulate(counts, initial=1))[:len(counts)]


def table_of(part: Part, firsts: Sequence[int], number: int, edition: int, least: Optional[int]) -> pd.DataFrame:
    """The rows of a part."""
    return dataframe(map(frame_of, lines(lines_of(part))), edition, least, first=firsts[number])


def read_soundings(paths: Union[str, os.PathLike[str], Sequence[Any]], blocksize: Union[int, str, None] = "64MB", edition: int = 1,
                   least: Optional[int] = None) -> Any:
    """A DataFrame of dask over files of frames, a part for each block, cut at line ends.

    Every worker must have the files under the same names. A refused frame has a row with its refusal, as in capgauze.dataframe.
    """
    frame = need("dask.dataframe", "python3-dask", "an archive")
    delayed = need("dask", "python3-dask", "an archive").delayed
    least_of(edition, least)
    meta, parts = dataframe(b"", edition, least), parts_of(paths, blocksize)
    if not parts:
        return frame.from_pandas(meta, npartitions=1)
    firsts = delayed(firsts_of)([delayed(count_of)(part) for part in parts])
    made = [delayed(table_of)(part, firsts, number, edition, least) for number, part in enumerate(parts)]
    return frame.from_delayed(made, meta=meta, verify_meta=False)
