"""Levels as numpy arrays, as a table of pandas and as a dataset of xarray. What is missing is NaN or NA, never a number."""
from __future__ import annotations

from dataclasses import dataclass
from typing import TYPE_CHECKING, Any, Iterator, NamedTuple, Optional

from ._declared import GRADED_WORDS, LEVEL_WORDS, Grade
from ._optional import need
from .batches import REFUSALS, Batch, batches
from .stream import Source, frames, least_of

if TYPE_CHECKING:
    import numpy as np
    import pandas as pd
    import xarray as xr

    Array = np.ndarray[Any, Any]


class Soundings(NamedTuple):
    """The soundings that were accepted, an element each: the frame's number from 1, station, launch, how many levels, grade."""

    frame: Array
    station: Array
    launch: Array
    levels: Array
    grade: Optional[Array]  # of the second edition


class Refusals(NamedTuple):
    """The frames that were refused, an element each: the frame's number from 1 and the refusal's name."""

    frame: Array
    name: Array


@dataclass(frozen=True)
class Levels:
    """All levels of all soundings, an element each; then the soundings, and the frames that were refused.

    frame, station, launch and level (its number from 1) are whole numbers, and so is pressure_pa. The measured values are float64:
    NaN where no sensor measured one.
    """

    frame: Array
    station: Array
    launch: Array
    level: Array
    pressure_pa: Array
    temperature_c: Array
    dewpoint_depression_c: Array
    wind_speed_ms: Optional[Array]  # of the second edition
    wind_direction_deg: Optional[Array]
    soundings: Soundings
    refused: Refusals

    def __len__(self) -> int:
        return len(self.frame)


def _measured(words: Array, at: int, per_unit: float, signed: bool = False) -> Array:
    """A column of values that may be missing: the word at `at` says whether one is there, the next one has it as the wire does."""
    import numpy as np

    sent = words[:, at + 1]
    if signed:  # an even number stands for its half, an odd one for minus its half rounded up
        sent = (sent >> np.uint64(1)).view(np.int64) ^ -(sent & np.uint64(1)).view(np.int64)
    return np.where(words[:, at] != 0, sent / per_unit, np.nan)


def columns(batch: Batch, edition: int) -> dict[str, Array]:
    """The columns of a batch's levels."""
    words = batch.words
    found = {"pressure_pa": words[:, 0].astype("int64"), "temperature_c": _measured(words, 1, 10, signed=True),
             "dewpoint_depression_c": _measured(words, 3, 10)}
    if edition == 2:
        found["wind_speed_ms"], found["wind_direction_deg"] = _measured(words, 5, 10), _measured(words, 7, 1)
    return found


class _All(NamedTuple):
    """What all batches have."""

    station: Array
    launch: Array
    levels: Array
    grade: Array
    refusal: Array
    columns: dict[str, Array]


def _collect(found: Iterator[Batch], edition: int) -> _All:
    np = need("numpy", "python3-numpy", "an array of levels")
    nothing = np.empty(0, np.uint64)
    parts: list[tuple[Any, ...]] = [(*batch[:5], columns(batch, edition)) for batch in found]
    if not parts:
        width = LEVEL_WORDS if edition == 1 else GRADED_WORDS
        parts = [(nothing,) * 4 + (nothing.astype(np.uint8), columns(Batch(*(nothing,) * 5, nothing.reshape(0, width)), edition))]
    station, launch, counts, grade, refusal = (np.concatenate([part[at] for part in parts]) for at in range(5))
    named = {name: np.concatenate([part[5][name] for part in parts]) for name in parts[0][5]}
    return _All(station, launch, counts, grade, refusal, named)


def _numbered(counts: Array) -> Array:
    """1, 2 .. up to each count, one behind the other."""
    import numpy as np

    ends = np.cumsum(counts)
    numbers: Array = np.arange(1, (ends[-1] if len(ends) else 0) + 1) - np.repeat(ends - counts, counts)
    return numbers


def levels(source: Source, edition: int = 1, least: Optional[int] = None) -> Levels:
    """The levels of a file, a pipe, bytes or frames (`frames` says what a source is) as numpy arrays.

    >>> read = levels(b"04010400050404640413\\n04\\n")
    >>> read.pressure_pa, read.temperature_c, read.dewpoint_depression_c
    (array([100]), array([-1.]), array([nan]))
    >>> read.refused.frame, read.refused.name
    (array([2]), array(['Truncated'], dtype='<U13'))
    """
    np = need("numpy", "python3-numpy", "an array of levels")
    everything = _collect(batches(frames(source), edition, least_of(edition, least)), edition)
    numbers, taken = np.arange(1, len(everything.refusal) + 1), everything.refusal == 0
    counts = everything.levels.astype(np.int64)
    names = np.array(REFUSALS)
    heads = Soundings(numbers[taken], everything.station[taken].astype(np.int64), everything.launch[taken], counts[taken],
                      everything.grade[taken].astype(np.uint8) if edition == 2 else None)
    found = everything.columns
    return Levels(np.repeat(numbers, counts), np.repeat(everything.station.astype(np.int64), counts), np.repeat(everything.launch, counts),
                  _numbered(counts), found["pressure_pa"], found["temperature_c"], found["dewpoint_depression_c"],
                  found.get("wind_speed_ms"), found.get("wind_direction_deg"), heads,
                  Refusals(numbers[~taken], names[everything.refusal[~taken]]))


def dataframe(source: Source, edition: int = 1, least: Optional[int] = None, first: int = 1) -> pd.DataFrame:
    """The table that the program `soundings` prints, as a DataFrame: a row for each level, and for each frame without one.

    Every frame has a row with its number, from `first` on. A refused one has its name in the column `refusal`. What a row has not is NA,
    a value that no sensor measured NaN.

    >>> print(dataframe(b"04010400050404640413\\n04\\n").to_string())
       frame  station  launch  level  pressure_pa  temperature_c  dewpoint_depression_c    refusal
    0      1        1       0      1          100           -1.0                    NaN        NaN
    1      2     <NA>    <NA>   <NA>         <NA>            NaN                    NaN  Truncated
    """
    np, pandas = need("numpy", "python3-numpy", "a DataFrame"), need("pandas", "python3-pandas", "a DataFrame")
    everything = _collect(batches(frames(source), edition, least_of(edition, least)), edition)
    counts = everything.levels.astype(np.int64)
    rows = np.maximum(counts, 1)
    refused, empty = np.repeat(everything.refusal != 0, rows), np.repeat(counts == 0, rows)

    def whole(values: Array, kind: str, missing: Array) -> Any:
        return pandas.arrays.IntegerArray(np.where(missing, 0, values).astype(kind), missing.copy())

    def spread(values: Array, fill: Any) -> Array:
        out: Array = np.full(len(empty), fill, values.dtype)
        out[~empty] = values
        return out

    found = everything.columns
    table = {"frame": np.repeat(np.arange(first, first + len(counts)), rows),
             "station": whole(np.repeat(everything.station, rows), "uint32", refused),
             "launch": whole(np.repeat(everything.launch, rows), "uint64", refused),
             "level": whole(_numbered(rows), "uint32", empty),
             "pressure_pa": whole(spread(found["pressure_pa"], 0), "uint32", empty),
             "temperature_c": spread(found["temperature_c"], np.nan),
             "dewpoint_depression_c": spread(found["dewpoint_depression_c"], np.nan)}
    if edition == 2:
        directions = spread(found["wind_direction_deg"], np.nan)
        table["wind_speed_ms"] = spread(found["wind_speed_ms"], np.nan)
        table["wind_direction_deg"] = whole(np.nan_to_num(directions), "uint16", np.isnan(directions))
        table["grade"] = pandas.Categorical.from_codes(np.where(refused, -1, np.repeat(everything.grade, rows).astype(np.int64)),
                                                   [grade.label for grade in Grade], ordered=True)
    table["refusal"] = pandas.Categorical.from_codes(np.repeat(everything.refusal.astype(np.int64), rows) - 1, REFUSALS[1:])
    made: pd.DataFrame = pandas.DataFrame(table)
    return made


def dataset(source: Source, edition: int = 1, least: Optional[int] = None) -> xr.Dataset:
    """The same as a dataset of xarray, as CF has ragged profiles: `obs` has all levels, one sounding's behind the other's.

    `levels` says how many a sounding has, `frame` which frame it was. The refused frames are a dimension of their own.

    >>> read = dataset(b"04010400050404640413\\n04\\n")
    >>> read["levels"].values, read["temperature_c"].values, read["refused_frame"].values, read["refusal"].values
    (array([1]), array([-1.]), array([2]), array([1], dtype=uint8))
    """
    np, xarray = need("numpy", "python3-numpy", "a dataset"), need("xarray", "python3-xarray", "a dataset")
    read = levels(source, edition, least)
    heads, refused = read.soundings, read.refused
    usual = not len(heads.launch) or int(heads.launch.max()) < 2**33  # a time that readers of CF can tell
    numbers = {name: number for number, name in enumerate(REFUSALS)}
    variables: dict[str, tuple[str, Array, dict[str, Any]]] = {
        "station": ("sounding", heads.station, {"long_name": "station, 1 to 99,999"}),
        "launch": ("sounding", heads.launch, {"long_name": "launch", "units": "seconds since 1970-01-01 00:00:00" if usual else "s"}),
        "levels": ("sounding", heads.levels, {"long_name": "how many levels it has", "sample_dimension": "obs"}),
        "refusal": ("refused", np.array([numbers[name] for name in refused.name], np.uint8), {
            "long_name": "why the frame is refused", "flag_values": np.arange(len(REFUSALS), dtype=np.uint8), "flag_meanings": " ".join(REFUSALS)})}
    if heads.grade is not None:
        variables["grade"] = ("sounding", heads.grade, {
            "long_name": "grade", "flag_values": np.array(Grade, np.uint8), "flag_meanings": " ".join(grade.label for grade in Grade)})
    for name, (standard, units) in _CF.items():
        values = getattr(read, name)
        if values is not None:
            variables[name] = ("obs", values, {"standard_name": standard, "units": units})
    made: xr.Dataset = xarray.Dataset(variables, {"frame": ("sounding", heads.frame), "refused_frame": ("refused", refused.frame)},
                                      {"Conventions": "CF-1.8", "title": "soundings, read by Capgauze"})
    return made


_CF = {"pressure_pa": ("air_pressure", "Pa"), "temperature_c": ("air_temperature", "degC"),
       "dewpoint_depression_c": ("dew_point_depression", "K"), "wind_speed_ms": ("wind_speed", "m s-1"),
       "wind_direction_deg": ("wind_from_direction", "degree")}
