#!/usr/bin/env python3
"""How fast soundings become arrays and tables: bench.py [--archive MEGABYTES]

Frames in memory, a million levels in all, in soundings of 4, 20, 120 and 4,000 levels. The best of five runs, in million levels a second.
With --archive a file of so many megabytes is read by one process, and by two workers of a cluster on this machine.
"""
from __future__ import annotations

import argparse
import os
import pathlib
import sys
import tempfile
import time
from typing import Any, Callable

sys.path.insert(0, str(pathlib.Path(__file__).resolve().parent))
import capgauze  # noqa: E402
import capgauze.dask  # noqa: E402

LEVELS = 1_000_000


def frame(count: int, edition: int = 1) -> bytes:
    """A sounding of so many levels; every seventh depression is missing."""
    levels = []
    for at in range(count):
        fields = {1: 100_000 - 90_000 * at // count, 2: capgauze.i64_to_unsigned(150 - 650 * at // count), 3: None if at % 7 == 3 else at % 60}
        if edition == 2:
            fields |= {4: at % 400, 5: at * 7 % 360}
        levels.append(capgauze.message([(tag, 0, number, 0) for tag, number in fields.items() if number is not None]))
    records, at = [(1, 0, 10_410, 0), (2, 0, 1_700_000_060, 0)], 0
    for level in levels:
        records.append((3, 1, at, len(level)))
        at += len(level)
    return capgauze.message(records, b"".join(levels))


def best(call: Callable[[], Any], times: int = 5) -> float:
    """The shortest time of several."""
    out = []
    for _ in range(times):
        begun = time.perf_counter()
        call()
        out.append(time.perf_counter() - begun)
    return min(out)


def in_memory() -> None:
    calls: dict[str, Callable[[list[bytes]], Any]] = {
        "levels": capgauze.levels, "levels, edition 2": lambda frames: capgauze.levels(frames, 2), "dataframe": capgauze.dataframe,
        "soundings, one by one": lambda frames: sum(1 for _ in capgauze.soundings(frames))}
    print("million levels a second | " + " | ".join(f"{count} levels" for count in (4, 20, 120, 4000)))
    for name, call in calls.items():
        speeds = []
        for count in (4, 20, 120, 4000):
            frames = [frame(count, 2 if "2" in name else 1)] * (LEVELS // count)
            speeds.append(LEVELS // count * count / best(lambda: call(frames), 5 if "one" not in name else 2) / 1e6)
        print(f"{name} | " + " | ".join(f"{speed:.1f}" for speed in speeds), flush=True)


def archived(megabytes: int) -> None:
    from distributed import Client, LocalCluster

    line = frame(120).hex().encode() + b"\n"
    count = megabytes * 1_000_000 // len(line)
    with tempfile.TemporaryDirectory() as folder:
        path = os.path.join(folder, "archive.hex")
        with open(path, "wb") as file:
            for _ in range(count):
                file.write(line)
        table = lambda: capgauze.dask.read_soundings(path, "16MB")
        mean = lambda frame: frame.groupby("station").temperature_c.mean()
        print(f"{count * len(line) / 1e6:.0f} MB, {count} soundings, {120 * count} levels; the mean temperature of each station, in seconds")
        print(f"one process, dataframe: {best(lambda: mean(capgauze.dataframe(path)), 3):.2f}", flush=True)
        with LocalCluster(n_workers=2, threads_per_worker=1, host="127.0.0.1", dashboard_address=None) as cluster, Client(cluster):
            print(f"two workers, capgauze.dask: {best(lambda: mean(table()).compute(), 3):.2f}", flush=True)


if __name__ == "__main__":
    asked = argparse.ArgumentParser(description=__doc__.split("\n")[0])
    asked.add_argument("--archive", type=int, metavar="MEGABYTES")
    megabytes = asked.parse_args().archive
    archived(megabytes) if megabytes else in_memory()
