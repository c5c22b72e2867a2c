"""A frame as hexadecimal, with the key, the length and the value of each field marked below it, and why it is refused."""
from __future__ import annotations

from bisect import bisect_left, bisect_right
from typing import Callable, Iterator, NamedTuple, Optional

from ._declared import LIMIT, Refusal, WireType
from .answers import Graded, Record, Sounding, launch_text
from .culprit import culprit
from .editions import LEVEL_TAG
from .messages import field_parts, records
from .parts import decode_varint
from .refusals import Refused
from .stream import Frame, reader

WIDTH = 16  # bytes a row
Style = Callable[[str, str], str]  # a text, and what it is: key, length, value, bad, or nothing


class Span(NamedTuple):
    """Bytes from start up to end that are a part of a field."""

    start: int
    end: int
    kind: str
    tag: Optional[int] = None


class Layer(NamedTuple):
    """What a message's bytes are, what its fields say, and why it is refused."""

    spans: list[Span]
    fields: list[str]
    refused: Optional[Refused]
    reason: Optional[str]


MARKS = {"key": "K", "length": "L", "value": "V", "bad": "!"}


def plain(text: str, kind: str) -> str:
    return text


def layer(s: bytes, at: int = 0) -> Layer:
    """A message that stands at a place of a frame.

    >>> layer(bytes.fromhex("0405")).spans
    [Span(start=0, end=1, kind='key', tag=1), Span(start=1, end=2, kind='value', tag=None)]
    """
    try:
        found, refused = records(s), None
    except Refused as caught:
        refused = caught.with_traceback(None)
        found = records(s, 0, caught.carried["place"])
    spans = [span for record in found for span in _spans(s, record)]
    reason = None
    if refused:
        bad, more = _failing(s, refused)
        spans += bad
        reason = str(refused) + (f"; {more}" if more else "")
    moved = [span._replace(start=span.start + at, end=span.end + at) for span in spans]
    return Layer(moved, [_field(s, record, at) for record in found], refused, reason)


def _spans(s: bytes, record: Record) -> Iterator[Span]:
    parts = field_parts(s, record)
    assert parts  # it was read from s
    yield Span(parts.key, parts.value if parts.length is None else parts.length, "key", record.tag)
    if parts.length is not None:
        yield Span(parts.length, parts.value, "length")
    if parts.value < parts.end:
        yield Span(parts.value, parts.end, "value")


def _failing(s: bytes, refused: Refused) -> tuple[list[Span], str]:
    """The bytes of the field that could not be read, and what is to be said of them beside the refusal."""
    place, failing, looked = (refused.carried[word] for word in ("place", "failing", "bytes"))
    if looked:
        before = [Span(place, failing, "key")] if failing > place else []
        more = f"its last byte, {s[failing + looked - 1]:02X}, promises another" if failing + looked == len(s) and looked < 9 else ""
        return [*before, Span(failing, failing + looked, "bad")], more
    if failing == len(s):
        return [*([Span(place, failing, "key")] if failing > place else []), Span(failing, failing + 1, "bad")], "the bytes end there"
    behind = decode_varint(s, failing).place if failing == place or s[place] & 3 == WireType.LENGTH_DELIMITED else failing
    if failing == place:
        return [Span(place, behind, "bad")], ""
    key = Span(place, failing, "key")
    if behind == failing:
        wanted = 4 if s[place] & 3 == WireType.THIRTY_TWO_BIT else 8
        return [key, Span(failing, len(s), "bad")], f"its value takes {wanted} bytes, and there {_are(len(s) - failing)}"
    promised = decode_varint(s, failing).value
    return [key, Span(failing, behind, "length"), Span(behind, max(len(s), behind + 1), "bad")], \
        f"its length promises {promised:,} bytes, and there {_are(len(s) - behind)}"


def _are(count: int) -> str:
    return f"{'is' if count == 1 else 'are'} {count or 'none'}"


def _field(s: bytes, record: Record, at: int) -> str:
    kind = WireType(record.type)
    if kind == WireType.LENGTH_DELIMITED:
        payload = s[record.value:record.value + record.length]
        shown = payload[:12].hex().upper() + (" .." if record.length > 12 else "")
        value = f"{record.length} byte{'' if record.length == 1 else 's'}" + (f": {shown}" if payload else "")
    else:
        value = f"{record.value:,}" + (", all ones" if record.value == 2**64 - 1 else "")
    return f"at {at + record.key:>4}  tag {record.tag}, {kind.label}: {value}"


def rows(s: bytes, layers: list[list[Span]], style: Style = plain) -> Iterator[str]:
    """The bytes in rows, and below each row the marks of each layer, and the tags below the keys."""
    last = max((spans[-1].end for spans in layers if spans), default=0)
    ends = [[span.end for span in spans] for spans in layers]
    for begun in range(0, max(len(s), last), WIDTH):
        here = [spans[bisect_right(of, begun):bisect_left(of, begun + WIDTH) + 1] for spans, of in zip(layers, ends)]
        kinds = {place: span.kind for span in here[0] for place in range(max(span.start, begun), min(span.end, begun + WIDTH))}
        shown = [style(f"{byte:02X}", kinds.get(begun + at, "")) for at, byte in enumerate(s[begun:begun + WIDTH])]
        absent = ["__"] if begun <= len(s) < min(begun + WIDTH, last) else []
        yield f"{begun:>6}  {' '.join(shown + absent)}"
        for spans in here:
            yield from (f"{'':8}{text}" for text in _marks([span for span in spans if span.start < begun + WIDTH], begun, style) if text)


def _marks(here: list[Span], begun: int, style: Style) -> tuple[str, str]:
    """The marks below a row of bytes, and the tags below the keys that begin in it."""
    marks, column, tags = "", 0, ""
    for number, span in enumerate(here):
        first, last = max(span.start - begun, 0), min(span.end - begun, WIDTH)
        width = 3 * (last - first) - 1
        head, fill = (MARKS[span.kind] if span.start >= begun else "-"), ("!" if span.kind == "bad" else "-")
        text = head.ljust(width, " " if width == 2 and fill == "-" and head != "-" else fill)
        marks += " " * (3 * first - column) + style(text, span.kind)
        column = 3 * first + width
        if span.tag is not None and span.start >= begun:
            following = next((other.start for other in here[number + 1:] if other.tag is not None), begun + WIDTH + 4)
            tag = str(span.tag)
            tags = tags.ljust(3 * first) + (tag if len(tag) < 3 * (following - span.start) else ".")
    return marks.rstrip(), tags


def told(thing: Sounding | Graded) -> Iterator[str]:
    """A sounding in words."""
    grade = f", grade {thing.grade.label}" if isinstance(thing, Graded) else ""
    count = f"{len(thing.levels)} level{'' if len(thing.levels) == 1 else 's'}"
    yield f"a sounding: station {thing.station}, launch {launch_text(thing.launch)}, {count}{grade}"
    for number, level in enumerate(thing.levels, 1):
        values = (f"{name} not measured" if value is None else f"{name} {value} {unit}" for value, (name, unit) in zip(level, _VALUES))
        yield f"  level {number}: {', '.join(values)}"


_VALUES = (("pressure", "Pa"), ("temperature", "C"), ("dew point", "C below it"), ("wind speed", "m/s"), ("wind direction", "degrees"))


def _blamed(spans: list[Span], keys: list[int]) -> Iterator[Span]:
    """The same spans, but those of the fields with these keys are bad."""
    bad = False
    for span in spans:
        bad = span.start in keys if span.kind == "key" else bad
        yield span._replace(kind="bad") if bad else span


def explain(number: int, frame: Frame, style: Style = plain, edition: Optional[int] = None) -> str:
    """A frame, explained; with an edition as a sounding too, whose levels are marked in a layer of their own.

    >>> print(explain(2, bytes.fromhex("04070080")), end="")
    frame 2: 4 bytes, refused
         0  04 07 00 80
            K  V  K  !!
            1
      at    0  tag 1, Varint: 7
      Truncated (1): the message's field at 2 ends too soon; the failing read began at 3 and looked at 1 byte of a varint; its last byte, 80, promises another
    """
    if isinstance(frame, Refused):
        return f"frame {number}: refused\n  {style(str(frame) if frame.number is None else f'{frame}: {frame.meaning}', 'bad')}\n"
    if len(frame) > LIMIT:
        return explain(number, Refused(Refusal.TOO_LONG), style)
    outer = layer(frame)
    head = f"{len(frame)} byte{'' if len(frame) == 1 else 's'}, "
    head += "refused" if outer.refused else f"{len(outer.fields)} field{'' if len(outer.fields) == 1 else 's'}"
    layers, said = [outer.spans], [*outer.fields, *([style(outer.reason, "bad")] if outer.reason else [])]
    if edition and not outer.refused:
        inner: list[Span] = []
        levels = [record for record in records(frame) if record.tag == LEVEL_TAG and record.type == WireType.LENGTH_DELIMITED]
        for at, record in enumerate(levels, 1):
            level = layer(frame[record.value:record.value + record.length], record.value)
            inner += level.spans
            said += [style(f"level {at}, at {record.value}: {level.reason}", "bad")] if level.reason else []
        thing = reader(edition)(frame)
        if isinstance(thing, Refused):
            found = culprit(frame, edition)
            where = f"; {found.said}" if found else ""
            said.append(style(f"no sounding: {thing}: {thing.meaning}{where}", "bad"))
            for spans in (outer.spans, inner):
                spans[:] = _blamed(spans, found.keys if found else [])
        else:
            said += told(thing)
        layers.append(inner)
    lines = [f"frame {number}: {head}", *rows(frame, layers, style), *(f"  {line}" for line in said)]
    return "\n".join(lines) + "\n"
