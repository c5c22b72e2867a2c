"""Runs the command as a user does."""
from __future__ import annotations

import os
import subprocess
import sys
from typing import Any, NamedTuple

from helpers import ROOT

COMMAND = [sys.executable, "-m", "capgauze"]


class Ran(NamedTuple):
    status: int
    out: str
    error: str


def surroundings(**more: str) -> dict[str, str]:
    """The environment in which the package is found, also where it is not installed."""
    return {**os.environ, "PYTHONPATH": str(ROOT / "bindings/python"), **more}


def run(*arguments: str, given: bytes = b"", **options: Any) -> Ran:
    """A command's status, output and error; from the repository's folder."""
    done = subprocess.run([*COMMAND, *arguments], input=given, capture_output=True, cwd=ROOT, env=surroundings(), timeout=600, **options)
    return Ran(done.returncode, done.stdout.decode(), done.stderr.decode())


def shell(line: str, **options: Any) -> Ran:
    """A line of a shell in which `capgauze` is the command."""
    text = f'capgauze() {{ {" ".join(COMMAND)} "$@"; }}; {line}'
    done = subprocess.run(["bash", "-c", text], capture_output=True, cwd=ROOT, env=surroundings(), timeout=600, **options)
    return Ran(done.returncode, done.stdout.decode(), done.stderr.decode())
