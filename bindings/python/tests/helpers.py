"""What several tests look at."""
from __future__ import annotations

import pathlib
from typing import Any, Callable

import pytest

import capgauze

ROOT = pathlib.Path(__file__).resolve().parents[3]
EXAMPLES = ROOT / "examples"
MESSAGE = bytes.fromhex("04FFFEFEFEFEFEFEFEFE0902C0DE0201000000")
RECORDS = [(1, 0, 2**64 - 1, 0, 0), (3, 1, 12, 2, 10), (3, 2, 1, 4, 14)]
NO_KEY = 2**64 - 1


def refused(number: int, call: Callable[..., Any], *arguments: Any, **carried: int) -> None:
    """The call is refused with this number, and carries this."""
    with pytest.raises(capgauze.Refused) as caught:
        call(*arguments)
    assert (caught.value.number, caught.value.carried) == (number, carried)
