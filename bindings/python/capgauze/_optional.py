"""Packages that are imported where they are used, and named where they are missing."""
from __future__ import annotations

import importlib
from typing import Any


class Missing(ImportError):
    """A package that is wanted is not there; its one line says which, and where it comes from."""


def need(name: str, debian: str, why: str) -> Any:
    """A module, or Missing.

    >>> need("numbers", "python3", "numbers").__name__
    'numbers'
    >>> need("no_such_thing", "python3-no-such-thing", "drawing")
    Traceback (most recent call last):
    capgauze._optional.Missing: drawing needs no_such_thing (Debian: python3-no-such-thing)
    """
    try:
        return importlib.import_module(name)
    except ImportError as missing:
        if (missing.name or "").split(".")[0] != name.split(".")[0]:
            raise
        raise Missing(f"{why} needs {name.split('.')[0]} (Debian: {debian})", name=missing.name) from None
