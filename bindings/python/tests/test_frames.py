"""Frames and soundings of files, pipes and bytes; as arrays and as tables."""
import gzip
import io
import os
import threading
from concurrent.futures import ThreadPoolExecutor

import pytest
from hypothesis import given
from hypothesis import strategies as st

import capgauze
import strategies
from capgauze import stream
from capgauze.batches import REFUSALS
from helpers import EXAMPLES

np, pandas = pytest.importorskip("numpy"), pytest.importorskip("pandas")
ROWS = EXAMPLES / "rows.hex"


def plain(found):
    """What can be compared: a sounding, or a refusal's name."""
    return [thing.name if isinstance(thing, capgauze.Refused) else thing for thing in found]


class TestSources:
    def test_each_kind(self):
        text = ROWS.read_bytes()
        wanted = plain(capgauze.soundings(ROWS))
        assert wanted[2:] == ["Repeated", "HEX"] and [sounding.station for sounding in wanted[:2]] == [10410, 10410]
        with open(ROWS) as opened_for_text:
            packed = gzip.open(io.BytesIO(gzip.compress(text)))
            for source in (str(ROWS), text, bytearray(text), memoryview(text), io.BytesIO(text), opened_for_text, text.rstrip(b"\n"), packed):
                assert plain(capgauze.soundings(source)) == wanted
        assert plain(capgauze.soundings([bytes.fromhex(line.decode()) for line in text.split()[:3]])) == wanted[:3]

    def test_a_pipe_gives_each_frame_as_it_comes(self):
        read, write = os.pipe()
        with open(read, "rb") as pipe, open(write, "wb", buffering=0) as sender:
            found = capgauze.soundings(pipe)
            for number in range(1, 4):
                sender.write(b"040%d0400\n" % number)
                assert next(found).station == number
            threading.Timer(0.05, sender.close).start()
            assert list(found) == []

    def test_what_is_no_source(self):
        for source in (5, None, io.StringIO("0401")):
            with pytest.raises(TypeError):
                list(capgauze.soundings(source))
        with pytest.raises(FileNotFoundError):
            list(capgauze.soundings("no such file"))
        for edition, least in ((0, None), (3, None), (1, 2), (2, 3)):
            with pytest.raises(ValueError):
                capgauze.soundings(b"", edition, least)

    def test_the_longest_line(self, monkeypatch):
        digits = b"00" * capgauze.LIMIT
        (longest,) = capgauze.frames(digits)
        assert longest == bytes(capgauze.LIMIT)
        after = [capgauze.Refused, bytes]
        assert [type(frame) for frame in capgauze.frames(digits + b"0\n0401")] == after
        assert plain(capgauze.frames(b"g" * (2 * capgauze.LIMIT + 1) + b"\n")) == ["TooLong"]
        monkeypatch.setattr(stream, "MOST_CHARACTERS", 4)
        monkeypatch.setattr(stream, "BLOCK", 3)
        assert plain(capgauze.frames(b"0401\n04010\n\n0401020304\n04\ngggg\n04010")) == [
            b"\x04\x01", "TooLong", b"", "TooLong", b"\x04", "HEX", "TooLong"]


@given(strategies.some_lines, st.integers(1, 40), st.booleans())
def test_no_frame_is_dropped(listed, size, ended):
    """Whatever the blocks are, each line is one frame, in its place."""
    text = b"\n".join(listed) + (b"\n" if ended and listed else b"")
    wanted = text.removesuffix(b"\n").split(b"\n") if text else []
    if text and not text.endswith(b"\n") and not wanted[-1]:
        wanted.pop()
    assert list(stream.lines(text[at:at + size] for at in range(0, len(text), size))) == wanted
    found = list(capgauze.soundings(text, 2))
    assert len(found) == len(wanted)
    for line, thing in zip(wanted, found):
        try:
            frame = bytes.fromhex(line.decode("ascii")) if not set(line) & set(b" \t\r") else None
        except ValueError:
            frame = None
        if frame is None:
            assert isinstance(thing, capgauze.NotHexadecimal)
            continue
        try:
            assert capgauze.graded(frame, capgauze.NOT_CANONICAL) == thing
        except capgauze.Refused as refused:
            assert isinstance(thing, capgauze.Refused) and thing.number == refused.number and thing.__traceback__ is None


def rows_of(found, edition):
    """The rows of a table from soundings one by one, with None where a cell is empty."""
    width = 3 if edition == 1 else 5
    for number, thing in enumerate(found, 1):
        if isinstance(thing, capgauze.Refused):
            yield (number, *[None] * (3 + width), *[None] * (edition - 1), thing.name)
            continue
        grade = (thing.grade.label,) if edition == 2 else ()
        for level, values in enumerate(thing.levels, 1):
            yield (number, thing.station, thing.launch, level, *values, *grade, None)
        if not thing.levels:
            yield (number, thing.station, thing.launch, None, *[None] * width, *grade, None)


class TestTables:
    @given(strategies.some_frames, st.sampled_from((1, 2)), st.sampled_from(capgauze.Grade), st.integers(1, 20))
    def test_a_dataframe_has_the_rows(self, some, edition, least, room):
        with pytest.MonkeyPatch.context() as patched:
            patched.setattr("capgauze.batches.ROOM", room)  # so that there are several batches
            least = least if edition == 2 else None
            table = capgauze.dataframe(some, edition, least)
            wanted = list(rows_of(capgauze.soundings(some, edition, least), edition))
            got = [tuple(None if pandas.isna(value) else value for value in row)
                   for row in table.astype(object).itertuples(index=False)]
            assert got == wanted
            assert list(table["frame"].unique()) == list(range(1, len(some) + 1))

    @given(strategies.some_frames, st.sampled_from((1, 2)), st.integers(1, 20))
    def test_arrays_are_the_levels(self, some, edition, room):
        with pytest.MonkeyPatch.context() as patched:
            patched.setattr("capgauze.batches.ROOM", room)
            read = capgauze.levels(some, edition)
        names = ["frame", "station", "launch", "level", "pressure_pa", "temperature_c", "dewpoint_depression_c"]
        names += ["wind_speed_ms", "wind_direction_deg"] if edition == 2 else []
        columns = [getattr(read, name).tolist() for name in names]
        got = [tuple(None if value != value else value for value in row) for row in zip(*columns)]
        wanted = [row for row in rows_of(capgauze.soundings(some, edition), edition) if row[3] is not None]
        assert got == [row[:len(names)] for row in wanted]
        assert sorted([*read.soundings.frame, *read.refused.frame]) == list(range(1, len(some) + 1))
        assert set(read.refused.name) <= set(REFUSALS[1:])
        assert (read.wind_speed_ms is None) == (edition == 1)
        assert read.soundings.levels.sum() == len(read)

    def test_missing_is_no_number(self):
        table = capgauze.dataframe(EXAMPLES / "iced.hex")
        assert table["dewpoint_depression_c"].isna().tolist() == [False, True, True, False]
        assert table["temperature_c"].isna().tolist() == [False, False, True, False]
        assert table["temperature_c"].mean() == pytest.approx((-5.3 - 21.7 - 44.8) / 3)
        winds = capgauze.dataframe(EXAMPLES / "winds.hex", 2)
        assert winds["wind_direction_deg"].isna().sum() == 1 and winds["wind_direction_deg"].dtype == "UInt16"
        assert str(winds["grade"].min()) == "NotCanonical"

    def test_no_frames(self):
        for edition, columns in ((1, 8), (2, 11)):
            table = capgauze.dataframe(b"", edition)
            assert table.shape == (0, columns)
            assert (table.dtypes == capgauze.dataframe(EXAMPLES / "winds.hex", edition).dtypes).all()
            assert len(capgauze.levels(b"", edition)) == 0

    def test_a_sounding_of_more_levels_than_a_batch(self):
        long = strategies.sounding_of(1, 2, [{1: 1 + at % 1000} for at in range(40_000)])
        read = capgauze.levels([long, b"", long])
        assert len(read) == 80_000 and read.refused.frame.tolist() == [2]
        assert np.array_equal(read.pressure_pa, np.tile(1 + np.arange(40_000) % 1000, 2))

    def test_threads_do_not_disturb_each_other(self):
        sources = [[strategies.sounding_of(station, 0, [{1: station, 2: 2 * at} for at in range(50)])] * 200 for station in range(1, 5)]
        with ThreadPoolExecutor(4) as pool:
            read = list(pool.map(capgauze.levels, sources))
        for station, found in enumerate(read, 1):
            assert set(found.pressure_pa) == {station} and np.array_equal(found.temperature_c, np.tile(np.arange(50) / 10, 200))

    def test_a_dataset_goes_through_a_file(self, tmp_path):
        xarray = pytest.importorskip("xarray")
        pytest.importorskip("netCDF4")
        text = (EXAMPLES / "winds.hex").read_bytes() + b"04\n0g\n04010400\n"
        made = capgauze.dataset(text, 2)
        made.to_netcdf(tmp_path / "soundings.nc")
        with xarray.open_dataset(tmp_path / "soundings.nc", decode_times=False) as again:
            for name in made.variables:
                assert np.array_equal(again[name].values, made[name].values, equal_nan=made[name].dtype.kind == "f"), name
            assert again["refused_frame"].values.tolist() == [4, 5] and again["levels"].values.tolist() == [3, 2, 2, 0]
        with xarray.open_dataset(tmp_path / "soundings.nc") as again:
            assert str(again["launch"].values[0]) == "2023-11-14T22:14:20.000000000"
        late = capgauze.dataset(bytes.fromhex("040504FFFEFEFEFEFEFEFEFE").hex().encode())
        assert late["launch"].values.tolist() == [2**64 - 1] and late["launch"].attrs["units"] == "s"
