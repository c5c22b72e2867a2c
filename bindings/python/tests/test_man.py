"""The man page of the command: it names what there is, its examples print what it shows, and it is set without a warning."""
import argparse
import re
import shutil
import subprocess
import sys

import pytest

import build_library
from capgauze.cli import _refusals, parser
from commands import shell, surroundings
from helpers import ROOT

PAGE = ROOT / "bindings/python/capgauze.1"
TEXT = PAGE.read_text()
PLAIN = re.sub(r"\\f.", "", TEXT.replace(r"\-", "-"))
sys.path.insert(0, str(ROOT / "tools"))
from shown import shown  # noqa: E402

EXAMPLES = list(shown(TEXT))


def section(name):
    """The text of a section."""
    return PLAIN.split(f".SH {name}\n")[1].split(".SH ")[0]


def options(made):
    """The names of a parser's options."""
    return {name for action in made._actions for name in action.option_strings} - {"-h"}


def test_every_command_and_option_is_there():
    chooser, commands = parser()
    synopsis = [line.split("\n.br")[0] for line in section("SYNOPSIS").split(".B capgauze ")[1:]]
    assert [line.split()[0] for line in synopsis] == list(commands)
    assert re.findall(r"^\.TP\n\.B (\w+)$", section("COMMANDS"), re.M) == list(commands)
    told = set(re.findall(r"(?<![\w-])--?[a-z]+", section("OPTIONS")))
    assert told == set().union(options(chooser), *map(options, commands.values()))
    for line, made in zip(synopsis, commands.values()):
        asked = set(re.findall(r"(?<![\w-])--?[a-z]+", line))
        assert asked == options(made) - {"--help"} - ({"--output"} if "-o" in asked else set())
        for action in made._actions:
            if isinstance(action.choices, (tuple, list, dict)) and not isinstance(action, argparse._SubParsersAction):
                assert all(re.search(rf"\b{choice}\b", line) for choice in action.choices)


def test_version_and_refusals_are_the_packages():
    assert f'"capgauze {build_library.version()}"' in TEXT.splitlines()[0]
    assert section("REFUSALS").replace("\n", " ").strip() == f"{_refusals}."


@pytest.mark.parametrize("line, wanted", EXAMPLES)
def test_an_example(line, wanted):
    done = shell(line)
    assert (done.status, done.error, done.out.splitlines()) == (0, "", wanted)


def test_there_are_examples():
    assert len(EXAMPLES) >= 4


@pytest.mark.skipif(shutil.which("man") is None, reason="no man here")
def test_it_is_set_without_a_warning():
    done = subprocess.run(["man", "--warnings", "-l", str(PAGE)], env=surroundings(MANWIDTH="100"), capture_output=True, text=True)
    assert (done.returncode, done.stderr) == (0, "")
    assert "EXIT STATUS" in done.stdout
