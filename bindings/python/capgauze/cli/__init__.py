"""The command `capgauze`: dump, soundings, pick, index, correct, explain and plot.

The exit status is 0 if all was read and written, refused frames or not; 1 if not, and one line on standard error says why;
2 for bad usage. A closed pipe ends it quietly, by SIGPIPE.
"""
from __future__ import annotations

import argparse
import signal
import sys
import textwrap
from typing import Optional, Sequence

from .._declared import PACKAGE_VERSION, Refusal
from .._optional import Missing
from . import dump, explain, lookup, plot, soundings
from .session import Failure, Session, Usage

_refusals = ", ".join(f"{refusal} {refusal.label}" for refusal in Refusal if refusal)
_listed = textwrap.fill(_refusals, 80, initial_indent="  ", subsequent_indent="  ")
EPILOG = f"""refusals:
{_listed}

exit status:
  0 if all was read and written, frames refused or not; 1 if not, and standard
  error says why; 2 for bad usage

A line of a file is a frame in hexadecimal. Files are read one behind the other;
none, or -, is the standard input. `capgauze COMMAND --help` says the rest."""


def parser() -> tuple[argparse.ArgumentParser, dict[str, argparse.ArgumentParser]]:
    """The parser that chooses a command, and each command's own."""
    made = argparse.ArgumentParser("capgauze", description="Reads Bilrost messages, and balloon soundings in which a missing value stays missing.",
                                   epilog=EPILOG, formatter_class=argparse.RawDescriptionHelpFormatter, allow_abbrev=False)
    made.add_argument("--version", action="version", version=f"capgauze {PACKAGE_VERSION}")
    commands = made.add_subparsers(metavar="COMMAND", dest="command", required=True)
    for module in (dump, soundings, lookup, explain, plot):
        module.add(commands)
    return made, commands.choices


def _plain(words: list[str]) -> list[str]:
    """Without a --, behind which all are names of files."""
    if "--" not in words:
        return words
    at = words.index("--")
    return words[:at] + [f"./{name}" if name.startswith("-") and name != "-" else name for name in words[at + 1:]]


def main(arguments: Optional[Sequence[str]] = None) -> int:
    """Runs a command: its exit status."""
    signal.signal(signal.SIGPIPE, signal.SIG_DFL)
    signal.signal(signal.SIGINT, signal.SIG_DFL)
    words = list(sys.argv[1:] if arguments is None else arguments)
    chooser, commands = parser()
    command = words[0] if words else ""
    # options may stand among the files, which a parser of commands does not take
    asked = commands[command].parse_intermixed_args(_plain(words[1:])) if command in commands else chooser.parse_args(words)
    try:
        with Session(asked) as session:
            asked.run(session, asked)
    except Usage as usage:
        return _said(command, usage, 2)
    except (Failure, Missing) as failure:
        return _said(command, failure, 1)
    return 0


def _said(command: str, why: Exception, status: int) -> int:
    print(f"capgauze {command}: {why}", file=sys.stderr)
    return status
