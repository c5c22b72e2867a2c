"""The Python of README.md and bindings/README.md runs, and prints what stands below it."""
import re
import subprocess
import sys

import pytest

from commands import surroundings
from helpers import EXAMPLES, MESSAGE, ROOT

PLACES = [(name, number) for name in ("README.md", "bindings/README.md") for number in range((ROOT / name).read_text().count("```python\n"))]


def snippet(name, number):
    """A piece of Python, and the indented text that follows it, if any does."""
    behind = (ROOT / name).read_text().split("```python\n")[1 + number]
    code, rest = behind.split("```\n", 1)
    printed = re.match(r"\n((?:    .*\n)+)", rest)
    return code, re.sub("(?m)^    ", "", printed[1]) if printed else None


def test_there_are_some():
    assert len(PLACES) >= 5


@pytest.mark.parametrize("name, number", PLACES)
def test_a_snippet(name, number, tmp_path):
    code, printed = snippet(name, number)
    if "capgauze.dask" in code:
        pytest.skip("test_dask.py runs it")
    before = f"message = bytes.fromhex({MESSAGE.hex()!r})\n" if "message)" in code and "message =" not in code else ""
    done = subprocess.run([sys.executable, "-c", before + code], cwd=ROOT, env=surroundings(), capture_output=True, text=True, timeout=60)
    assert (done.returncode, done.stderr) == (0, "")
    if "corrected.hex" in code:
        printed = (EXAMPLES / "corrected.hex").read_text().splitlines(keepends=True)[2]
    if printed is not None:
        assert done.stdout == printed
