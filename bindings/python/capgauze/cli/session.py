"""A run of a command: its inputs, its output, its progress, and how it fails."""
from __future__ import annotations

import os
import stat
import sys
import time
from argparse import Namespace
from collections import Counter
from typing import Any, BinaryIO, Callable, Iterator, NoReturn, Optional, TypeVar

from ..refusals import Refused
from ..stream import Frame, frame_of, lines

T = TypeVar("T")


class Failure(Exception):
    """What failed, in one line; the status is 1."""


class Usage(Exception):
    """Options that do not go together; the status is 2."""


def failed(what: str, error: OSError) -> NoReturn:
    """Says it with the system's reason."""
    raise Failure(f"{what}: {os.strerror(error.errno) if error.errno else error}") from error


class Progress:
    """How far the input is read, on standard error. It is there on a terminal only, once a second has passed."""

    def __init__(self, total: int, width: int = 30, clock: Callable[[], float] = time.monotonic) -> None:
        self.total, self.width, self.clock = total, width, clock
        self.begun = self.said = clock()
        self.read = 0
        self.shown = False

    def add(self, size: int) -> None:
        self.read += size
        now = self.clock()
        if now - self.begun > 1 and now - self.said > 0.1:
            self.said, self.shown = now, True
            sys.stderr.write("\r" + self.text(now - self.begun))
            sys.stderr.flush()

    def text(self, seconds: float) -> str:
        part = min(self.read / self.total, 1.0)
        left = seconds * (1 - part) / part
        full = round(self.width * part)
        bar = "#" * full + " " * (self.width - full)
        return f"{part:4.0%} [{bar}] {self.read / 1e6:.0f} of {self.total / 1e6:.0f} MB, {left:.0f} s left \x1b[K"

    def end(self) -> None:
        if self.shown:
            sys.stderr.write("\r\x1b[K")
            sys.stderr.flush()


class Output:
    """Standard output in blocks; Failure if it is closed, or if a write fails. Python's own writer would tell a failed write again when it is taken away."""

    def __init__(self, size: int = 1 << 16) -> None:
        self.size, self.held, self.pieces = size, 0, list[bytes]()
        try:
            os.fstat(1)
        except OSError as error:
            failed("standard output", error)

    def write(self, data: bytes) -> None:
        self.pieces.append(data)
        self.held += len(data)
        if self.held >= self.size:
            self.flush()

    def flush(self) -> None:
        left = memoryview(b"".join(self.pieces))
        self.held, self.pieces = 0, []
        try:
            while left:
                left = left[os.write(1, left):]
        except OSError as error:
            failed("standard output", error)


class Session:
    """The inputs are opened before anything is printed. What was printed is on its way before more input is waited for."""

    def __init__(self, arguments: Namespace) -> None:
        self.arguments = arguments
        self.counts: Counter[str] = Counter()
        self.out = Output()
        self.progress: Optional[Progress] = None

    def __enter__(self) -> Session:
        return self

    def __exit__(self, kind: Optional[type], *_: Any) -> None:
        if self.progress:
            self.progress.end()
        if kind is None:
            self.end()

    def open(self, names: list[str]) -> list[tuple[str, BinaryIO]]:
        """The files of these names; none, or -, is the standard input."""
        opened: list[tuple[str, BinaryIO]] = []
        for name in names or ["-"]:
            if name == "-":
                opened.append(("standard input", _standard_input()))
                continue
            try:
                opened.append((name, open(name, "rb", buffering=0)))
            except OSError as error:
                failed(name, error)
            except ValueError as error:
                raise Failure(f"{name!r}: {error}") from error
        self._measure([file for _, file in opened])
        return opened

    def _measure(self, files: list[BinaryIO]) -> None:
        kinds = [os.fstat(file.fileno()) for file in files]
        total = sum(kind.st_size for kind in kinds)
        whole = all(stat.S_ISREG(kind.st_mode) for kind in kinds)
        if whole and total and sys.stderr and sys.stderr.isatty() and not os.isatty(1):
            self.progress = Progress(total + (self.progress.total if self.progress else 0))

    def frames(self, names: list[str]) -> Iterator[tuple[int, Frame]]:
        """The frames of all files, one behind the other, counted from 1. A file's end ends its last line."""
        return self._frames(self.open(names))

    def _frames(self, opened: list[tuple[str, BinaryIO]]) -> Iterator[tuple[int, Frame]]:
        number = 0
        for name, file in opened:
            with file:
                for line in lines(self._blocks(name, file)):
                    number += 1
                    yield number, frame_of(line)

    def accepted(self, names: list[str], read: Callable[[bytes], T], refused_line: Callable[[int, Refused], str]) -> Iterator[tuple[int, bytes, T]]:
        """The frames that `read` takes, each with what it answers; a refused one has its line printed in its place. All are counted."""
        for number, frame in self.frames(names):
            try:
                if isinstance(frame, Refused):
                    raise frame
                answer = read(frame)
            except Refused as refused:
                self.count(refused)
                self.print(refused_line(number, refused))
                continue
            self.count(None)
            yield number, frame, answer

    def _blocks(self, name: str, file: BinaryIO) -> Iterator[bytes]:
        while True:
            self.flush()
            try:
                block = file.read(1 << 16)
            except OSError as error:
                failed(name, error)
            if not block:
                return
            if self.progress:
                self.progress.add(len(block))
            yield block

    def print(self, text: str) -> None:
        """Writes lines to standard output, each with its end."""
        self.out.write(text.encode())

    def flush(self) -> None:
        self.out.flush()

    def count(self, verdict: Optional[Refused]) -> None:
        """Counts a frame in the words of the dump."""
        self.counts["OK" if verdict is None else verdict_of(verdict)] += 1

    def end(self) -> None:
        """Closes the output, since some systems tell a full disk only then, and says the counts that were asked for."""
        self.flush()
        try:
            os.close(os.dup(1))
        except OSError as error:
            failed("standard output", error)
        if getattr(self.arguments, "count", False):
            order = ["OK", *(f"NO {number}" for number in range(1, 256)), "HEX"]
            sys.stderr.write(f"{sum(self.counts.values())} frames\n")
            sys.stderr.writelines(f"{self.counts[kind]} {kind}\n" for kind in order if self.counts[kind])


def verdict_of(refused: Refused) -> str:
    """A refusal in the words of the dump.

    >>> verdict_of(Refused(11))
    'NO 11'
    """
    return refused.name if refused.number is None else f"NO {refused.number}"


def verdict_line(number: int, refused: Refused) -> str:
    """A refused frame's line: its number, and the refusal in the words of the dump."""
    return f"{number} {verdict_of(refused)}\n"


def _standard_input() -> BinaryIO:
    """Standard input, without what Python would do to it; Failure if it is closed."""
    try:
        return open(0, "rb", buffering=0, closefd=False)
    except OSError as error:
        failed("standard input", error)
