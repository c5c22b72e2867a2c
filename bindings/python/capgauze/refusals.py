"""Refusals, and how they are said."""
from __future__ import annotations

from typing import Mapping, Optional

from ._declared import LIMIT, REFUSAL_MEANINGS, Refusal

UNKNOWN = "Unknown"  # of a number that only a library of another version can answer
NAMES: tuple[str, ...] = ("accepted", *(refusal.label for refusal in Refusal if refusal))

_BY_NUMBER = {int(refusal): refusal for refusal in Refusal}

# What a reader was reading, and why it was refused.
READING: dict[str, str] = {
    "decode_varint": "the varint", "decode_varint_capped": "the varint", "decode_key": "the key", "decode_value": "the value",
    "skip_field": "what is skipped", "step_at": "the field", "read_message": "the message's field", "read_payload": "the payload's field"}
_IN_THE_BYTES = {Refusal.TRUNCATED: "ends too soon", Refusal.INVALID_VARINT: "has a varint of 2^64 or more",
                 Refusal.TAG_OVERFLOWED: "has a tag above 4,294,967,295"}
_BEFORE_THEM = {Refusal.TOO_LONG: f"the slice has more than {LIMIT:,} bytes",
                Refusal.NO_ROOM: "the table has no room for {count} fields", Refusal.BAD_RECORD: "there is no such wire type",
                Refusal.BAD_CAP: "a place, a start or an end is above the slice's length"}


def _sentence(number: Refusal, reading: str, carried: Mapping[str, int]) -> str:
    """A reader's refusal."""
    if number not in _IN_THE_BYTES:
        return _BEFORE_THEM[number].format(**carried)
    began = carried.get("failing", carried["place"])
    looked = {0: "", 1: " and looked at 1 byte of a varint"}
    return (f"{reading} at {carried['place']} {_IN_THE_BYTES[number]}; the failing read began at {began}"
            + looked.get(carried["bytes"], f" and looked at {carried['bytes']} bytes of a varint"))


class Refused(ValueError):
    """A refusal: its number and name, and by name what it carries (place, count, failing, bytes, start, tag ..).

    >>> refused = Refused(11)
    >>> refused.number, refused.name, refused.carried
    (REPEATED, 'Repeated', {})
    >>> refused.meaning
    'a tag that stands more than once where one field of it is wanted'
    """

    number: Optional[int]  # a Refusal; or None for a line that is no hexadecimal, which the library never sees
    name: str
    carried: dict[str, int]

    def __init__(self, number: int, carried: Optional[Mapping[str, int]] = None, reading: Optional[str] = None) -> None:
        known = _BY_NUMBER.get(int(number))
        self.number, self.carried = number if known is None else known, dict(carried or {})
        self.name = UNKNOWN if known is None else known.label
        listed = ", ".join(f"{key} {value}" for key, value in self.carried.items())
        told = _sentence(known, reading, self.carried) if reading and known else listed
        super().__init__(f"{self.name} ({number})" + (f": {told}" if told else ""))

    def __reduce__(self) -> tuple[object, ...]:  # it has to reach other processes
        return _made_again, (type(self), self.args, self.__dict__)

    @property
    def meaning(self) -> str:
        """What the header says of its number."""
        if isinstance(self.number, Refusal):
            return REFUSAL_MEANINGS[self.number.name]
        return str(self) if self.number is None else "a number that the header does not have: the library is of another version"


class NotHexadecimal(Refused):
    """A line of a file that is no frame in hexadecimal: a digit too few, or another character. Its name is HEX.

    >>> NotHexadecimal().name, str(NotHexadecimal())
    ('HEX', 'HEX: the line is not hexadecimal')
    """

    def __init__(self) -> None:
        self.number, self.name, self.carried = None, "HEX", {}
        ValueError.__init__(self, "HEX: the line is not hexadecimal")


def _made_again(kind: type[Refused], arguments: tuple[str, ...], state: dict[str, object]) -> Refused:
    refused = kind.__new__(kind)
    refused.args = arguments
    refused.__dict__.update(state)
    return refused
