"""Messages and soundings by chance, good and damaged."""
from __future__ import annotations

from itertools import accumulate
from typing import Any

from hypothesis import strategies as st

import capgauze

words64 = st.one_of(st.integers(0, 300), st.integers(0, 2**64 - 1), st.just(2**64 - 1))
payloads = st.binary(max_size=40)


@st.composite
def messages(draw: Any) -> bytes:
    """A good message, by the library's own writer."""
    tags = sorted(draw(st.lists(st.one_of(st.integers(0, 12), st.integers(0, 2**32 - 1)), max_size=8)))
    source, records = bytearray(), []
    for tag in tags:
        kind = draw(st.sampled_from(capgauze.WireType))
        if kind == capgauze.LENGTH_DELIMITED:
            payload = draw(payloads)
            records.append((tag, kind, len(source), len(payload)))
            source += payload
        else:
            number = draw(words64)
            fixed = {capgauze.THIRTY_TWO_BIT: 4, capgauze.SIXTY_FOUR_BIT: 8}
            records.append((tag, kind, number % 2**32 if kind == capgauze.THIRTY_TWO_BIT else number, fixed.get(kind, 0)))
    return capgauze.message(records, bytes(source))


@st.composite
def damaged(draw: Any, good: Any = messages()) -> bytes:
    """A message with bytes cut off, changed or put in."""
    s = bytearray(draw(good))
    for _ in range(draw(st.integers(1, 3))):
        at = draw(st.integers(0, len(s)))
        kind = draw(st.sampled_from(("cut", "change", "insert")))
        if kind == "cut":
            del s[at:]
        elif kind == "insert":
            s[at:at] = draw(st.binary(min_size=1, max_size=4))
        elif at < len(s):
            s[at] = draw(st.integers(0, 255))
    return bytes(s)


any_bytes = st.one_of(messages(), damaged(), st.binary(max_size=60))
missing = st.one_of(st.none(), st.just(2**64 - 1))  # left away, or all ones


@st.composite
def level_fields(draw: Any, edition: int = 2) -> dict[int, int]:
    """The numbers of a level by their tags; what is missing is left away or all ones."""
    fields = {1: draw(st.integers(1, 110_000)), 2: draw(st.one_of(missing, st.integers(-1500, 1000).map(capgauze.i64_to_unsigned))),
              3: draw(st.one_of(missing, st.integers(0, 600)))}
    if edition == 2:
        fields |= {4: draw(st.one_of(missing, st.integers(0, 2000))), 5: draw(st.one_of(missing, st.integers(0, 359)))}
    return {tag: number for tag, number in fields.items() if number is not None}


def sounding_of(station: int, launch: int, levels: list[dict[int, int]]) -> bytes:
    """The message of a sounding whose levels have these numbers by their tags."""
    parts = [capgauze.message([(tag, 0, number, 0) for tag, number in sorted(level.items())]) for level in levels]
    starts = accumulate(map(len, parts), initial=0)
    records = [(1, 0, station, 0), (2, 0, launch, 0), *((3, 1, start, len(part)) for start, part in zip(starts, parts))]
    return capgauze.message(records, b"".join(parts))


@st.composite
def soundings(draw: Any, edition: int = 2) -> bytes:
    launch = st.one_of(st.integers(0, 2**31), st.just(2**64 - 1))
    return sounding_of(draw(st.integers(1, 99_999)), draw(launch), draw(st.lists(level_fields(edition), max_size=6)))


@st.composite
def faulty_soundings(draw: Any) -> bytes:
    """Good messages that are soundings, or nearly: fields twice, missing, of another type or out of their range."""
    def fields(numbers: dict[int, int]) -> list[tuple[int, int, int, int]]:
        out = []
        for tag, number in sorted(numbers.items()):
            kind = draw(st.sampled_from((0, 0, 0, 0, 0, 2)))
            out += [(tag, kind, number % 2**32 if kind else number, 4 if kind else 0)] * draw(st.sampled_from((1, 1, 1, 1, 1, 0, 2)))
        return out

    levels = [capgauze.message(fields({**draw(level_fields()), **draw(st.dictionaries(st.integers(1, 6), words64, max_size=1))}))
              for _ in range(draw(st.integers(0, 3)))]
    head = fields({1: draw(st.sampled_from((1, 10_410, 99_999, 100_000, 0))), 2: 7})
    starts = accumulate(map(len, levels), initial=0)
    parts = [(3, 1, start, len(level)) for start, level in zip(starts, levels)] + draw(st.sampled_from(([], [], [(3, 0, 5, 0)], [(8, 0, 5, 0)])))
    return capgauze.message([*head, *parts], b"".join(levels))


some_frames = st.lists(st.one_of(soundings(), damaged(soundings()), any_bytes), max_size=8)
no_frames = st.sampled_from([b"", b"0", b"0g", b"04 01", b"0401\r", b"\xff"])  # but for the first
some_lines = st.lists(st.one_of(soundings().map(lambda s: s.hex().encode()), soundings().map(lambda s: s.hex().upper().encode()),
                                any_bytes.map(lambda s: s.hex().encode()), no_frames), max_size=8)
