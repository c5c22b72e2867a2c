"""A frame explained: every byte is marked as what it is, and a refusal at the bytes that failed."""
import os
import pty
import re
import subprocess

import pytest
from hypothesis import given, settings
from hypothesis import strategies as st

import capgauze
import strategies
from capgauze.culprit import culprit
from capgauze.explain import WIDTH, explain, layer
from capgauze.refusals import Refusal
from capgauze.stream import reader
from commands import COMMAND, run, surroundings
from helpers import EXAMPLES, MESSAGE, ROOT

DAMAGED = [bytes.fromhex(line) for line in (EXAMPLES / "damaged.hex").read_text().split()]


@given(strategies.any_bytes)
def test_every_byte_is_marked(s):
    read = layer(s)
    places = [place for span in read.spans for place in range(span.start, span.end)]
    assert places == sorted(set(places))
    marked = {place: span.kind for span in read.spans for place in range(span.start, span.end)}
    if read.refused is None:
        assert places == list(range(len(s))) and "bad" not in marked.values()
        assert [span.tag for span in read.spans if span.kind == "key"] == [record.tag for record in capgauze.records(s)]
        return
    bad = [place for place, kind in marked.items() if kind == "bad"]
    carried = read.refused.carried
    assert bad and bad == list(range(bad[0], bad[-1] + 1)) and carried["place"] <= bad[0]
    assert bad[0] >= carried["failing"] and bad[-1] <= len(s)
    if carried["bytes"]:
        assert (bad[0], len(bad)) == (carried["failing"], carried["bytes"])
    assert set(range(carried["place"])) <= set(marked)
    assert str(read.refused) in read.reason


@given(strategies.any_bytes)
def test_the_rows_have_the_bytes(s):
    text = explain(1, s)
    shown = re.findall(r"^ *\d+  ((?:[0-9A-F]{2} ?)+)(?:__)?$", text, re.M)
    assert bytes.fromhex("".join(shown)) == s
    for row in shown:
        assert len(row.split()) <= WIDTH


@given(strategies.faulty_soundings(), st.sampled_from((1, 2)))
@settings(max_examples=300)
def test_the_culprit_is_the_first(s, edition):
    """What stands before it is a sounding, and with it the refusal is the one told."""
    told = reader(edition)(s)
    found = culprit(s, edition)
    if not isinstance(told, capgauze.Refused):
        assert found is None
        return
    assert found.said and (found.keys == []) == (told.number == Refusal.MISSING_FIELD)
    fields = capgauze.records(s)
    if found.level is None:
        assert set(found.keys) <= {record.key for record in fields}
    else:
        levels = [record for record in fields if record.tag == 3]
        head = [record for record in fields if record.tag < 3]
        for count, number in ((found.level - 1, None), (found.level, told.number)):
            part = reader(edition)(capgauze.message(head + levels[:count], s))
            assert (part.number if isinstance(part, capgauze.Refused) else None) == number
        blamed = levels[found.level - 1]
        assert all(blamed.value <= key < blamed.value + blamed.length for key in found.keys)
        assert f"level {found.level}: " in found.said
    text = explain(1, s, edition=edition)
    assert found.said in text and ("!!" in text) == bool(found.keys)


class TestDamaged:
    @pytest.mark.parametrize("s, marks, said", zip(DAMAGED, [
        "K  !!", "K  V  K  !!", "K  V  !!!!!", "K  L  !!", "K  !!!!!", "K  " + "!" * 26, "!" * 26, "!" * 14], [
        "the bytes end there", "its last byte, 80, promises another", "its last byte, 80, promises another",
        "its length promises 3 bytes, and there is 1", "its value takes 4 bytes, and there are 2", "2^64 or more", "2^64 or more", "4,294,967,295"]))
    def test_each(self, s, marks, said):
        text = explain(1, s).splitlines()
        assert text[2].strip() == marks and said in text[-1]

    def test_others(self):
        assert "and there are none" in explain(1, bytes.fromhex("0503"))
        assert explain(1, b"") == "frame 1: 0 bytes, 0 fields\n"
        assert "HEX: the line is not hexadecimal" in explain(3, capgauze.NotHexadecimal())
        assert explain(1, bytes(capgauze.LIMIT + 1)) == explain(1, capgauze.Refused(Refusal.TOO_LONG))
        assert "TooLong (4): slice, or bytes to be written, above 1,048,575" in explain(1, capgauze.Refused(Refusal.TOO_LONG))


def test_a_message():
    assert explain(1, MESSAGE) == """frame 1: 19 bytes, 3 fields
     0  04 FF FE FE FE FE FE FE FE FE 09 02 C0 DE 02 01
        K  V------------------------- K  L  V---- K  V
        1                             3           3
    16  00 00 00
        --------
  at    0  tag 1, Varint: 18,446,744,073,709,551,615, all ones
  at   10  tag 3, LengthDelimited: 2 bytes: C0DE
  at   14  tag 3, ThirtyTwoBit: 1
"""


def test_soundings():
    iced = bytes.fromhex((EXAMPLES / "iced.hex").read_text())
    text = explain(1, iced, edition=1)
    assert "level 3: pressure 40000 Pa, temperature not measured, dew point not measured" in text
    twice = explain(1, bytes.fromhex("040100010400"), edition=1)
    assert twice.splitlines()[2].strip() == "!! !! !! !! K  V"
    assert twice.splitlines()[-1] == ("  no sounding: Repeated (11): a tag that stands more than once where one field of it is wanted; "
                                      "the station, tag 1")
    assert "level 1: the temperature, tag 2, is 2,002" in explain(1, bytes.fromhex("040104000505046404D20E"), edition=1)
    assert "MissingField (13)" in explain(1, b"", edition=1) and "; no station, tag 1" in explain(1, b"", edition=1)
    assert "level 1, at 6: Truncated (1)" in explain(1, bytes.fromhex("04010400050104"), edition=2)
    assert "grade NotCanonical" in explain(1, bytes.fromhex((EXAMPLES / "winds.hex").read_text().split()[1]), edition=2)


class TestCommand:
    def test_plain_where_there_is_no_terminal(self):
        ran = run("explain", "examples/damaged.hex", "examples/rows.hex", "--sounding", "1")
        assert (ran.status, ran.error) == (0, "") and "\x1b" not in ran.out
        assert re.findall(r"^frame (\d+)", ran.out, re.M) == [str(number) for number in range(1, 13)]
        assert run("explain", "--frame", "2", "examples/damaged.hex").out == explain(2, DAMAGED[1])

    @pytest.mark.parametrize("more, coloured", [({}, True), ({"NO_COLOR": "1"}, False), ({"TERM": "dumb"}, False)])
    def test_coloured_on_a_terminal(self, more, coloured):
        terminal, end = pty.openpty()
        shown = {"TERM": "xterm", **more}
        done = subprocess.run([*COMMAND, "explain", "--frame", "2", "examples/damaged.hex"], stdout=end, cwd=ROOT, timeout=60,
                              env={**{name: value for name, value in surroundings().items() if name != "NO_COLOR"}, **shown})
        os.close(end)
        text = os.read(terminal, 1 << 16).decode()
        os.close(terminal)
        assert done.returncode == 0 and ("\x1b[1;31m!!\x1b[0m" in text) == coloured
        assert re.sub(r"\x1b\[[0-9;]*m", "", text).replace("\r", "") == explain(2, DAMAGED[1])
