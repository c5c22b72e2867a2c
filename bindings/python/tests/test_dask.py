"""Archives: the same table as by one process, however the files are cut and whoever is lost."""
import os
import signal
import subprocess
import sys
import time

import pytest
from hypothesis import given, settings
from hypothesis import strategies as st

import capgauze
from commands import surroundings
from helpers import EXAMPLES, ROOT

dask = pytest.importorskip("dask")
pandas = pytest.importorskip("pandas")
import capgauze.dask as archive  # noqa: E402


def equal(one, other):
    pandas.testing.assert_frame_equal(one.reset_index(drop=True), other.reset_index(drop=True))


LINES = [line for path in sorted(EXAMPLES.iterdir()) for line in path.read_bytes().split()] + [b"", b"", b"0g", b"04010400"]
some_lines = st.lists(st.sampled_from(LINES), max_size=6)


@given(st.lists(st.tuples(some_lines, st.booleans()), min_size=1, max_size=3), st.integers(1, 90), st.sampled_from((1, 2)))
@settings(max_examples=25)
def test_cut_anywhere(tmp_path_factory, files, blocksize, edition):
    folder, whole = tmp_path_factory.mktemp("archive"), []
    for number, (listed, ended) in enumerate(files):
        text = b"\n".join(listed) + (b"\n" if ended and listed else b"")
        (folder / f"{number}.hex").write_bytes(text)
        whole += capgauze.frames(text)
    table = archive.read_soundings(f"{folder}/*.hex", blocksize, edition)
    wanted = capgauze.dataframe(whole, edition)
    equal(table.compute(scheduler="synchronous"), wanted)
    parts = archive.parts_of(f"{folder}/*.hex", blocksize)
    assert sum(map(archive.count_of, parts)) == len(whole)


def test_what_is_asked_for(tmp_path):
    (tmp_path / "none.hex").write_bytes(b"")
    assert len(archive.read_soundings(tmp_path / "none.hex").compute(scheduler="synchronous")) == 0
    for paths in ("no such file", str(tmp_path / "*.txt")):
        with pytest.raises(FileNotFoundError):
            archive.read_soundings(paths)
    for blocksize, edition, least in ((0, 1, None), ("1MB", 3, None), ("1MB", 1, 2)):
        with pytest.raises(ValueError):
            archive.read_soundings(str(EXAMPLES / "*.hex"), blocksize, edition, least)
    table = archive.read_soundings([EXAMPLES / "iced.hex", EXAMPLES / "winds.hex"], "60B", 2, capgauze.HAS_EXTENSIONS)
    assert table.npartitions > 4
    assert (table.dtypes == table.compute(scheduler="synchronous").dtypes).all()
    assert table["refusal"].compute(scheduler="synchronous").dropna().tolist() == ["NotCanonical", "NotCanonical"]


def test_a_line_longer_than_blocks_and_limits(tmp_path):
    text = b"0401\n" + b"0" * (2 * capgauze.LIMIT + 2) + b"\n04010400\n"
    (tmp_path / "long.hex").write_bytes(text)
    table = archive.read_soundings(tmp_path / "long.hex", 300_000).compute(scheduler="synchronous")
    assert table["refusal"].astype(object).fillna("").tolist() == ["MissingField", "TooLong", ""] and table["frame"].tolist() == [1, 2, 3]


@pytest.mark.slow
class TestCluster:
    """Two worker processes on this machine, by its own address alone."""

    @pytest.fixture(scope="class")
    def files(self, tmp_path_factory):
        folder = tmp_path_factory.mktemp("archive")
        names = ("soundings", "iced", "rows", "winds", "two-sensors")
        lines = [line for name in names for line in (EXAMPLES / f"{name}.hex").read_bytes().split(b"\n")]
        for number in range(3):
            (folder / f"{number}.hex").write_bytes(b"\n".join(lines * (1500 + number)))
        return folder

    @pytest.fixture(scope="class")
    def client(self):
        distributed = pytest.importorskip("distributed")
        before = os.environ.get("PYTHONPATH")
        os.environ["PYTHONPATH"] = surroundings()["PYTHONPATH"]
        with distributed.LocalCluster(n_workers=2, threads_per_worker=1, processes=True, host="127.0.0.1", dashboard_address=None) as cluster:
            with distributed.Client(cluster) as client:
                yield client
        os.environ.pop("PYTHONPATH") if before is None else os.environ.update(PYTHONPATH=before)

    def test_the_same_table(self, client, files):
        table = archive.read_soundings(f"{files}/*.hex", "64kB")
        assert table.npartitions > 10
        wanted = capgauze.dataframe([frame for path in sorted(files.iterdir()) for frame in capgauze.frames(path)])
        equal(table.compute(), wanted)
        assert table["refusal"].value_counts().compute().sort_index().equals(wanted["refusal"].value_counts().sort_index())
        assert {address.split("//")[1].split(":")[0] for address in client.scheduler_info()["workers"]} == {"127.0.0.1"}

    def test_a_worker_killed_half_way_loses_nothing(self, client, files):
        table = archive.read_soundings(f"{files}/*.hex", "16kB")
        workers = client.run(os.getpid)
        held = client.persist(table)
        begun = time.monotonic()
        done = lambda: sum(len(keys) for keys in client.has_what().values())
        while done() < table.npartitions // 2 and time.monotonic() - begun < 30:
            time.sleep(0.01)
        lost = max(workers, key=lambda address: len(client.has_what()[address]))
        assert len(client.has_what()[lost]) > 1  # what it has done is lost with it
        os.kill(workers[lost], signal.SIGKILL)
        wanted = capgauze.dataframe([frame for path in sorted(files.iterdir()) for frame in capgauze.frames(path)])
        equal(held.compute(), wanted)
        assert workers[lost] not in client.run(os.getpid).values()


@pytest.mark.slow
def test_the_ten_lines_of_the_readme(tmp_path):
    text = (ROOT / "README.md").read_text()
    (snippet,) = [block.split("```")[0] for block in text.split("```python\n")[1:] if "capgauze.dask" in block.split("```")[0]]
    assert len(snippet.strip().splitlines()) <= 10
    (tmp_path / "ten.py").write_text(snippet)
    done = subprocess.run([sys.executable, str(tmp_path / "ten.py")], cwd=ROOT, env=surroundings(), capture_output=True, text=True, timeout=120)
    assert done.returncode == 0, done.stderr
    assert "10410" in done.stdout and "Repeated" in done.stdout
