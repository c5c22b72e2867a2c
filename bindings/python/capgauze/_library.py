"""The compiled library: what it is lent, and how it is called."""
from __future__ import annotations

from array import array
from itertools import combinations
from typing import Any, Union

try:
    from . import _capgauze  # type: ignore[attr-defined]
    from ._declared import LIMIT
except ImportError as missing:
    if missing.name == "_cffi_backend":
        raise ImportError("capgauze needs cffi (Debian: python3-cffi)") from None
    raise ImportError("capgauze is not built: bindings/python/build.sh builds it, of the archive that `tools/build.sh library` "
                      f"proves and writes ({missing})") from None

from .refusals import READING, Refused

ffi, lib = _capgauze.ffi, _capgauze.lib

Bytes = Union[bytes, bytearray, memoryview, "array[int]"]  # or anything else that has its buffer
Table = Any  # a writable buffer of 64-bit words: an array('Q'), a numpy array of uint64
Room = Any  # a writable buffer of bytes

_KINDS = {1: "uint8_t[]", 8: "uint64_t[]"}
_NOTHING = {size: ffi.new(kind, 1) for size, kind in _KINDS.items()}  # lent where there is no element: a pointer is never null


def owned(s: Bytes) -> bytes:
    """A message as bytes, which nobody changes while it is read: itself, or a copy."""
    return s if isinstance(s, bytes) else bytes(memoryview(s))


def lent(s: Bytes) -> tuple[bytes, int]:
    """A message as C takes it: its bytes and their number."""
    s = owned(s)
    return s, len(s)


def room(memory: Room, size: int = 1) -> tuple[Any, int]:
    """Writable memory as C takes it, for one call: a pointer to elements of that many bytes, 1 or 8, and their number."""
    view = memoryview(memory)
    if view.readonly or not view.c_contiguous or view.itemsize != size:
        raise TypeError(f"not a writable buffer of elements of {size} byte{'s' if size > 1 else ''}")
    count = view.nbytes // size
    return (ffi.from_buffer(_KINDS[size], memory, require_writable=True) if count else _NOTHING[size]), count


def table_room(table: Table) -> tuple[Any, int]:
    """A table as C takes it."""
    return room(table, 8)


def words(count: int) -> array[int]:
    """A table of that many words, all 0."""
    return array("Q", (0,)) * count


def _span(pointer: Any) -> tuple[int, int]:
    start = int(ffi.cast("uintptr_t", pointer))
    return start, start + ffi.sizeof(pointer)


def _apart(rooms: list[Any]) -> None:
    """Memory that is written may overlap nothing else that is lent; messages are bytes, which nobody can write."""
    for (start, end), (other_start, other_end) in combinations(map(_span, rooms), 2):
        if start < other_end and other_start < end:
            raise ValueError("memory that is written overlaps other memory that is lent")


def _fields(name: str) -> tuple[str, ...]:
    answer = ffi.typeof(getattr(lib, name)).result
    return tuple(field for field, _ in answer.fields) if answer.kind == "struct" else ()


_ENTRIES = {name.removeprefix("capgauze_"): (getattr(lib, name), _fields(name)) for name in dir(lib)
            if name.startswith("capgauze_") and ffi.typeof(getattr(lib, name)).kind == "function"}


def call(name: str, *arguments: Any) -> Any:
    """An entry's answer in C's words: a tuple of numbers, or a number.

    >>> call("decode_varint", *lent(b"\\x80"), 0)
    (1, 0, 0, 1)
    """
    entry, fields = _ENTRIES[name]
    rooms = [thing for thing in arguments if isinstance(thing, ffi.CData) and thing not in _NOTHING.values()]
    try:
        _apart(rooms)
        answer = entry(*arguments)
    finally:
        for lent_room in rooms:
            ffi.release(lent_room)  # at once, and not when a traceback is forgotten: its owner may want to grow
    return tuple(getattr(answer, field) for field in fields) if fields else answer


# What a refusal carries, where it is not what the answer's words are called: of these the number alone.
_NUMBER_ALONE = frozenset(("pick", "pick_at", "pick_early", "make_index", "pick_indexed", "write_line", "read_line", "corrected_by",
                           "write_corrected", "run_count", "run_value", "read_run", "read_sounding", "read_graded"))
_CARRIED = {"encode_message": ("start", "needed"), "prepend_message": ("start", "needed"), "write_run": ("start", "needed"),
            "remove_record": ("index",), "replace_payload": ("index",), "insert_payload": ("index",)}


def accepted(name: str, *arguments: Any) -> list[int]:
    """The answer's words behind the number, or Refused with what they are called."""
    number, *told = call(name, *arguments)
    fields = _ENTRIES[name][1][1:]
    if number:
        names = () if name in _NUMBER_ALONE else _CARRIED.get(name, fields)
        raise Refused(number, dict(zip(names, told)), READING.get(name))
    return [word for field, word in zip(fields, told) if field not in ("failing", "bytes")]


def size_of(s: Bytes) -> int:
    return memoryview(s).nbytes


def most_fields(s: Bytes) -> int:
    """No message of these bytes has more fields, each of which takes two; a longer one than LIMIT is refused."""
    return min(size_of(s), LIMIT) // 2
