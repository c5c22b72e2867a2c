"""The command: what it prints is what the programs print, and it fails as they do."""
import contextlib
import csv
import io
import itertools
import json
import os
import pathlib
import pty
import re
import subprocess

import pytest
from hypothesis import given, settings
from hypothesis import strategies as st

import capgauze
import strategies
from capgauze.cli import session
from capgauze.cli import soundings as table
from commands import COMMAND, run, shell, surroundings
from helpers import EXAMPLES, ROOT

pandas = pytest.importorskip("pandas")
PROGRAMS = pathlib.Path(os.environ.get("CAPGAUZE_PROGRAMS") or ROOT / "target/bin")


def by_frame(text, separator):
    """A program's lines by the frame's number."""
    return {int(number): list(lines) for number, lines in itertools.groupby(text.splitlines(), key=lambda line: line.split(separator)[0])}


class TestAsThePrograms:
    @pytest.mark.parametrize("name, separator", [("dump", " "), ("soundings", ",")])
    def test_the_stored_output(self, name, separator):
        """Letter for letter; but for lines of more than 4,096 characters, which the programs do not read."""
        given, stored = (ROOT / "crates" / name / "stdin").read_bytes(), (ROOT / "crates" / name / "stdout").read_text()
        ran = run(name, given=given)
        assert (ran.status, ran.error) == (0, "")
        if name == "soundings":
            first, stored = stored.split("\n", 1)
            assert ran.out.startswith(first + "\n")
            ran = ran._replace(out=ran.out.removeprefix(first + "\n"))
        wanted, got = by_frame(stored, separator), by_frame(ran.out, separator)
        long = [number for number, lines in wanted.items() if lines[0].split(separator)[-1] == "LONG"]
        assert list(got) == list(wanted)
        assert all("LONG" not in got[number][0] for number in long)
        assert {number: lines for number, lines in got.items() if number not in long} == {
            number: lines for number, lines in wanted.items() if number not in long}
        assert len(wanted) - len(long) > 40

    def test_the_examples_of_the_readme(self):
        text = (ROOT / "README.md").read_text()
        examples = re.findall(r"^    \$ (.*(?:\./(?:dump|soundings)|capgauze \w+).*)\n((?:    (?!\$ ).*\n)+)", text, re.M)
        assert len(examples) >= 7
        for line, wanted in examples:
            ran = shell(re.sub(r"\./(dump|soundings)", r"capgauze \1", line))
            assert (ran.status, ran.out, ran.error) == (0, re.sub("(?m)^    ", "", wanted), "")

    @pytest.mark.skipif(not (PROGRAMS / "soundings").is_file(), reason="the programs are not built here")
    @given(strategies.some_lines)
    @settings(max_examples=15)
    def test_the_programs_themselves(self, lines):
        given = b"\n".join(line for line in lines * 3 if len(line) <= 4096)
        for name in ("dump", "soundings"):
            told = subprocess.run([str(PROGRAMS / name)], input=given, capture_output=True)
            assert run(name, given=given).out.encode() == told.stdout

    def test_counts(self):
        ran = run("dump", "--count", "examples/damaged.hex", "-", given=b"04050000\n0g\n")
        assert (ran.status, ran.error) == (0, "10 frames\n1 OK\n5 NO 1\n2 NO 2\n1 NO 3\n1 HEX\n")
        assert run("soundings", "examples/rows.hex", "--count").error == "4 frames\n2 OK\n1 NO 11\n1 HEX\n"

    def test_files_one_behind_the_other(self, tmp_path):
        for name, text in (("a", "0401\n"), ("b", "0402"), ("c", "04"), ("none", ""), ("-dashed", "0401\n")):
            (tmp_path / name).write_text(text)
        wanted = run("dump", given=b"0401\n0402\n04\n").out
        assert len(wanted.splitlines()) == 5
        assert run("dump", *(str(tmp_path / name) for name in ("none", "a", "b", "none", "c"))).out == wanted
        assert run("dump", str(tmp_path / "a"), str(tmp_path / "b"), "-", given=b"04").out == wanted
        done = subprocess.run([*COMMAND, "dump", "--", "-dashed"], cwd=tmp_path, env=surroundings(), capture_output=True)
        assert (done.returncode, done.stdout) == (0, b"1 F 1 0 0000000000000001\n1 OK 1 2\n")
        assert run("dump").out == ""
        assert run("soundings").out == "frame,station,launch,level,pressure_pa,temperature_c,dewpoint_depression_c,refusal\n"

    def test_a_pipe_has_its_answer_before_more_is_sent(self):
        with subprocess.Popen([*COMMAND, "dump"], stdin=subprocess.PIPE, stdout=subprocess.PIPE, env=surroundings()) as process:
            for number in range(1, 4):
                process.stdin.write(b"0401\n")
                process.stdin.flush()
                assert [process.stdout.readline() for _ in range(2)] == [b"%d F 1 0 0000000000000001\n" % number, b"%d OK 1 2\n" % number]
            process.stdin.close()
        assert process.returncode == 0

    def test_a_line_of_any_length(self):
        most = "00" * capgauze.LIMIT
        ran = run("soundings", given=f"{most}\n{most}0\n{most}00\n".encode())
        assert [row.split(",")[-1] for row in ran.out.splitlines()] == ["refusal", "Truncated", "TooLong", "TooLong"]


class TestFailures:
    def test_what_cannot_be_read(self, tmp_path):
        for name, reason in ((str(tmp_path / "missing"), "No such file or directory"), ("", "No such file or directory"),
                             (str(tmp_path), "Is a directory"), ("a" * 5000, "File name too long")):
            for command in (["dump"], ["soundings"], ["pick", "1"], ["index"], ["explain"], ["plot", "-o", str(tmp_path / "x.svg")]):
                ran = run(*command, name)
                assert (ran.status, ran.error) == (1, f"capgauze {command[0]}: {name}: {reason}\n")
                assert ran.out == ""
        assert run("dump", "examples/iced.hex", str(tmp_path / "missing")).out == ""  # nothing is printed before all are open

    @pytest.mark.parametrize("line, status, error", [
        ("capgauze dump <&-", 1, "capgauze dump: standard input: Bad file descriptor\n"),
        ("capgauze dump examples/iced.hex >&-", 1, "capgauze dump: standard output: Bad file descriptor\n"),
        ("capgauze dump examples/iced.hex >/dev/full", 1, "capgauze dump: standard output: No space left on device\n"),
        ("capgauze soundings --least any", 2, "capgauze soundings: the first edition has no grades: --least is for --edition 2\n"),
        ("capgauze soundings --format netcdf", 2, "capgauze soundings: --output FILE is for --format netcdf, which needs it\n"),
        ("capgauze soundings --format netcdf -o /nowhere/x.nc </dev/null", 1, "capgauze soundings: /nowhere/x.nc: "),
        ("capgauze correct - -", 1, "capgauze correct: standard input: it cannot be both ORIGINAL and CORRECTION\n"),
        ("many=$(mktemp); yes 0401 | head -n 200000 >$many; capgauze dump $many | head -n 1 >/dev/null; s=${PIPESTATUS[0]}; rm $many; exit $s",
         141, "")])
    def test_streams_and_usage(self, line, status, error):
        ran = shell(line)
        assert (ran.status, ran.error[:len(error)] if error.endswith(": ") else ran.error) == (status, error)

    @pytest.mark.parametrize("arguments", [[], ["nothing"], ["dump", "--wrong"], ["dump", "-x"], ["pick"], ["pick", "x"], ["pick", "-1"],
                                           ["pick", "4294967296"], ["soundings", "--edition", "3"], ["soundings", "--edition", "2", "--least", "x"],
                                           ["correct", "one"], ["correct", "--level", "0", "a", "b"], ["plot", "examples/iced.hex"]])
    def test_bad_usage(self, arguments):
        ran = run(*arguments)
        assert (ran.status, ran.out) == (2, "") and ran.error.startswith("usage: capgauze")

    @pytest.mark.parametrize("command", [[], ["dump"], ["soundings"], ["pick"], ["index"], ["correct"], ["explain"], ["plot"]])
    def test_help(self, command):
        ran = run(*command, "--help")
        assert (ran.status, ran.error) == (0, "") and ran.out.startswith("usage: capgauze")
        assert max(map(len, ran.out.splitlines())) <= 100
        assert command or all(re.search(rf"\b{int(refusal)}\s+{refusal.label}\b", ran.out) for refusal in capgauze.Refusal if refusal)
        for line, wanted in re.findall(r"^  \$ (.*)\n((?:  [^$\n].*\n?)+)", ran.out, re.M):  # its examples
            assert shell(line).out == re.sub("(?m)^  ", "", wanted).rstrip("\n") + "\n"


class TestSoundings:
    def test_the_second_edition(self):
        rows = run("soundings", "--edition", "2", "--least", "extensions", "examples/winds.hex").out.splitlines()
        assert rows[0].endswith(",dewpoint_depression_c,wind_speed_ms,wind_direction_deg,grade,refusal")
        assert rows[1] == "1,10410,1700000060,1,92500,8.4,2.1,6.2,240,Canonical,"
        assert rows[4:6] == ["2,,,,,,,,,,NotCanonical", "3,10410,1700086460,1,92500,5.5,3.0,4.8,210,HasExtensions,"]
        rows = run("soundings", "--edition", "2", "examples/winds.hex").out.splitlines()
        assert rows[5] == "2,10410,1700043260,2,70000,-4.4,0.9,13.1,,NotCanonical,"
        assert run("soundings", "--edition", "2", "--least", "canonical", "examples/winds.hex").out.splitlines()[-1] == "3,,,,,,,,,,UnknownField"

    @given(strategies.some_frames, st.sampled_from((1, 2)))
    def test_every_row_has_the_cells_of_the_first(self, some, edition):
        text = table.ROWS[edition] + "".join(f"{number},{row}\n" for number, thing in enumerate(capgauze.soundings(some, edition), 1)
                                             for row in table.cells(thing, edition))
        names, *rows = csv.reader(io.StringIO(text), strict=True)
        assert all(len(row) == len(names) for row in rows)
        frame = capgauze.dataframe(some, edition)
        assert list(frame.columns) == names and len(frame) == len(rows)
        for row, (_, values) in zip(rows, frame.astype(object).iterrows()):
            for name, cell, value in zip(names, row, values):
                assert (cell == "") == bool(pandas.isna(value)), name
                if cell and isinstance(value, float):
                    assert float(cell) == value
                elif cell:
                    assert cell == str(value)

    def test_json_lines(self):
        first, second, third, fourth = map(json.loads, run("soundings", "--format", "jsonl", "examples/rows.hex").out.splitlines())
        assert first["levels"] == [{"pressure_pa": 70000, "temperature_c": -5.3, "dewpoint_depression_c": None}]
        assert (second["levels"], third, fourth) == ([], {"frame": 3, "refusal": "Repeated"}, {"frame": 4, "refusal": "HEX"})
        graded = json.loads(run("soundings", "--format", "jsonl", "--edition", "2", "examples/winds.hex").out.splitlines()[1])
        assert graded["grade"] == "NotCanonical" and graded["levels"][1]["wind_direction_deg"] is None

    def test_netcdf(self, tmp_path):
        xarray = pytest.importorskip("xarray")
        pytest.importorskip("netCDF4")
        ran = run("soundings", "--format", "netcdf", "-o", str(tmp_path / "x.nc"), "--count", "examples/iced.hex", "examples/rows.hex")
        assert (ran.status, ran.out, ran.error) == (0, "", "5 frames\n3 OK\n1 NO 11\n1 HEX\n")
        with xarray.open_dataset(tmp_path / "x.nc") as read:
            assert read["dewpoint_depression_c"].isnull().values.tolist() == [False, True, True, False, True]
            assert read["refused_frame"].values.tolist() == [4, 5]


class TestLookups:
    def test_pick(self):
        assert run("pick", "1", "examples/soundings.hex").out == "1 F 1 0 0000000000002899\n2 F 1 0 0000000000002D00\n3 NO 1\n"
        assert run("pick", "3", "examples/rows.hex").out == "1 F 3 1 04F0A1030469\n2 NONE\n3 NO 11\n4 HEX\n"
        assert run("pick", "3", "--all", "examples/rows.hex").out.splitlines()[2:4] == ["3 F 3 1 048897040452040C", "3 F 3 1 04F0A1030469040C000E"]
        assert run("pick", "1", given=b"0601020000\n0701020000000000FF\n").out == "1 F 1 2 01020000\n2 F 1 3 01020000000000FF\n"

    def test_index(self):
        ran = run("index", "--count", "examples/soundings.hex")
        assert ran.out.splitlines()[:4] == ["1 X 1 0 1", "1 X 2 3 1", "1 X 3 9 3",
                                            "1 OK 3 02000000010000000000010000000200000300000100000003000009000003"]
        assert ran.out.endswith("3 NO 1\n") and ran.error == "3 frames\n2 OK\n1 NO 1\n"

    def test_correct(self, tmp_path):
        sounding, correction, result = (EXAMPLES / "corrected.hex").read_text().splitlines()
        one, other = tmp_path / "original", tmp_path / "correction"
        one.write_text(f"{sounding}\n{sounding}\n{sounding}\n04\n0g\n0401\n")
        other.write_text(f"{correction}\n\n04\n0401\n\n0402\n")
        assert run("correct", "--level", "2", str(one), str(other)).out == f"{result}\n{sounding}\nNO 1\nNO 1\nHEX\nNO 13\n"
        assert run("correct", str(one), str(other)).out.splitlines()[-1] == "0402"
        assert run("correct", str(one), "-", given=b"\n").error == "capgauze correct: standard input: it has fewer frames than the other file\n"
        ran = run("correct", "-", str(other), given=b"0401\n")
        assert (ran.status, ran.error) == (1, "capgauze correct: standard input: it has fewer frames than the other file\n")
        for text in run("correct", "--help").out, :
            line = "; ".join(found.strip() for found in re.findall(r"\$ (.*)", text))
            ran = shell(f"cd {tmp_path}; ln -s {EXAMPLES} examples; {line}")
            assert ran.out.splitlines()[-1] == "1,10410,1700000060,2,50000,-21.7,,"


class TestProgress:
    def test_a_bar(self, capsys):
        now = [0.0]
        bar = session.Progress(200_000_000, width=10, clock=lambda: now[0])
        for second in (0.5, 1.05, 1.2, 4.0):
            now[0] = second
            bar.add(20_000_000)
        bar.end()
        shown = capsys.readouterr().err.split("\r")
        assert len(shown) == 5 and shown[0] == "" and shown[-1] == "\x1b[K"
        assert shown[-2].startswith(" 40% [####      ] 80 of 200 MB, 6 s left")
        session.Progress(5).end()
        assert capsys.readouterr().err == ""

    def test_on_a_terminal_only(self, tmp_path):
        (tmp_path / "many").write_bytes(b"0401\n" * 250_000)
        command, terminal, end = [*COMMAND, "dump", str(tmp_path / "many")], *pty.openpty()
        with subprocess.Popen(command, stdout=subprocess.DEVNULL, stderr=end, env=surroundings()) as on_terminal, \
                subprocess.Popen(command, stdout=subprocess.DEVNULL, stderr=subprocess.PIPE, env=surroundings()) as on_none:
            os.close(end)
            shown = b""
            with contextlib.suppress(OSError):  # what a terminal tells when its other end is closed
                while block := os.read(terminal, 1 << 16):
                    shown += block
            assert on_none.stderr.read() == b""
        os.close(terminal)
        assert on_terminal.returncode == on_none.returncode == 0
        assert b"MB, " in shown and shown.endswith(b"\r\x1b[K")
