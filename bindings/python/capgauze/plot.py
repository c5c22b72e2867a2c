"""A sounding drawn: temperature and dew point against pressure, and wind.

A missing value is a gap. No line is drawn across a level that no sensor measured, and the gap is hatched and named, so that nobody
takes it for dry air.
"""
from __future__ import annotations

from typing import TYPE_CHECKING, Any, NamedTuple, Optional, Sequence, Union

from ._optional import need
from .answers import Graded, Level, Sounding, Windy, launch_text

if TYPE_CHECKING:
    from matplotlib.figure import Figure

STANDARD = (1000, 925, 850, 700, 500, 400, 300, 250, 200, 150, 100, 70, 50, 30, 20, 10, 7, 5, 3, 2, 1)  # hPa
KNOTS = 3600 / 1852  # in a metre a second
STYLE = {"svg.hashsalt": "capgauze", "svg.fonttype": "path", "font.size": 10, "hatch.linewidth": 0.8, "axes.unicode_minus": True,
         "font.family": "DejaVu Sans"}


class Series(NamedTuple):
    """What is drawn as one line: a value for each level, or None."""

    name: str
    short: str
    values: list[Optional[float]]
    colour: str
    marker: str
    hatch: str


def dew_point(level: Union[Level, Windy]) -> Optional[float]:
    """Temperature less depression, where both were measured.

    >>> dew_point(Level(70000, -5.3, 1.2)), dew_point(Level(50000, -21.7, None))
    (-6.5, None)
    """
    if level.temperature_c is None or level.dewpoint_depression_c is None:
        return None
    return round(level.temperature_c - level.dewpoint_depression_c, 1)


def runs(values: Sequence[Optional[float]]) -> list[range]:
    """The levels that were measured, in runs of neighbours; a line goes through one run.

    >>> runs([1.0, 2.0, None, 3.0])
    [range(0, 2), range(3, 4)]
    """
    out: list[range] = []
    for at, value in enumerate(values):
        if value is None:
            continue
        if out and out[-1].stop == at:
            out[-1] = range(out[-1].start, at + 1)
        else:
            out.append(range(at, at + 1))
    return out


def gaps(values: Sequence[Optional[float]]) -> list[range]:
    """The levels that were not, in runs.

    >>> gaps([1.0, None, None, 3.0])
    [range(1, 3)]
    """
    return runs([1.0 if value is None else None for value in values])


def series_of(sounding: Union[Sounding, Graded]) -> list[Series]:
    """Temperature and dew point."""
    return [Series("temperature", "T", [level.temperature_c for level in sounding.levels], "#b8321f", "o", "\\"),
            Series("dew point", "Td", [dew_point(level) for level in sounding.levels], "#166a43", "s", "/")]


def draw(sounding: Union[Sounding, Graded]) -> Figure:
    """The sounding as a figure of matplotlib; savefig writes it."""
    matplotlib = need("matplotlib", "python3-matplotlib", "drawing")
    from matplotlib.figure import Figure as Made

    with matplotlib.rc_context(STYLE):
        winds = [level for level in sounding.levels if isinstance(level, Windy)]
        windy = any(level.wind_speed_ms is not None or level.wind_direction_deg is not None for level in winds)
        made: Figure = Made(figsize=(8.2 if windy else 7.4, 7.4), layout="constrained")
        panels = made.subplots(1, 3 if windy else 2, sharey=True, width_ratios=(7, 0.8, 1.1) if windy else (7, 0.8))
        pressures, lines = [level.pressure_pa / 100 for level in sounding.levels], series_of(sounding)
        _axes(panels[0], pressures)
        size = 5.5 if len(pressures) <= 40 else 3.0
        for series in lines:
            _line(panels[0], series, pressures, size)
        _bands(panels[0], lines, pressures)
        _strip(panels[1], lines, pressures, size)
        if windy:
            _winds(panels[2], winds)
        _legend(panels[0], lines)
        count = f"{len(pressures)} level{'' if len(pressures) == 1 else 's'}"
        below = count + (f", grade {sounding.grade.label}" if windy and isinstance(sounding, Graded) else "")
        panels[0].set_title(f"Station {sounding.station}, {launch_text(sounding.launch)}", loc="left", fontweight="bold", fontsize=13, pad=22)
        panels[0].annotate(below, (0, 1), xycoords="axes fraction", xytext=(0, 7), textcoords="offset points", fontsize=10, color="#555555")
        return made


def _axes(axes: Any, pressures: list[float]) -> None:
    from matplotlib.ticker import FixedFormatter, FixedLocator, NullLocator

    low, high = (min(pressures), max(pressures)) if pressures else (100.0, 1000.0)
    top, bottom = low / 1.15, high * 1.07
    axes.set_yscale("log")
    axes.set_ylim(bottom, top)
    ticks = [float(tick) for tick in STANDARD if top <= tick <= bottom]
    ticks = ticks if len(ticks) > 1 else sorted({*pressures, *ticks})
    axes.yaxis.set_major_locator(FixedLocator(ticks))
    axes.yaxis.set_major_formatter(FixedFormatter([f"{tick:g}" for tick in ticks]))
    axes.yaxis.set_minor_locator(NullLocator())
    axes.set_ylabel("pressure, hPa")
    axes.set_xlabel("°C")
    axes.grid(True, color="#dddddd", linewidth=0.8)
    axes.set_axisbelow(True)
    for edge in ("top", "right"):
        axes.spines[edge].set_visible(False)


def _line(axes: Any, series: Series, pressures: list[float], size: float) -> None:
    """The runs of a series, each a line of its own."""
    for number, run in enumerate(runs(series.values)):
        axes.plot([series.values[at] for at in run], [pressures[at] for at in run], color=series.colour, marker=series.marker, markersize=size,
                  linewidth=2, label=series.name if number == 0 else "_", gid=f"{series.name} {run.start + 1} to {run.stop}", zorder=3)


def _bands(axes: Any, lines: list[Series], pressures: list[float]) -> None:
    """The gaps of each series as bands that are named, on the side where fewer values are."""
    left, right = axes.get_xlim()
    for number, series in enumerate(lines):
        for gap in gaps(series.values):
            low, high = _edges(gap, pressures)
            axes.axhspan(low, high, facecolor=series.colour, alpha=0.06, linewidth=0, zorder=0)
            axes.axhspan(low, high, facecolor="none", edgecolor=_pale(series.colour), hatch=series.hatch, linewidth=0, zorder=1)
            near = [value for other in lines for value, pressure in zip(other.values, pressures)
                    if value is not None and low <= pressure <= high]
            at_right = not near or sum(near) / len(near) < (left + right) / 2
            first, last = (f"{pressures[at]:.0f}" if pressures[at] >= 10 else f"{pressures[at]:g}" for at in (gap[0], gap[-1]))
            where = f"at {first} hPa" if len(gap) == 1 else f"from {first} to {last} hPa"
            axes.annotate(f"{series.name} not measured {where}", (0.98 if at_right else 0.02, (low * high) ** 0.5),
                          xycoords=("axes fraction", "data"), xytext=(0, -9 if number else 9), textcoords="offset points",
                          ha="right" if at_right else "left", va="center", color=series.colour, fontsize=9.5, zorder=4,
                          bbox={"boxstyle": "round,pad=0.25", "facecolor": "white", "edgecolor": series.colour, "linewidth": 0.6})


def _pale(colour: str) -> str:
    """A colour with much white in it, and not one that is seen through: viewers of SVG differ in hatches that are."""
    return "#" + "".join(f"{255 - (255 - int(colour[at:at + 2], 16)) * 3 // 10:02x}" for at in (1, 3, 5))


def _edges(gap: range, pressures: list[float]) -> tuple[float, float]:
    """From the measured level below a gap to the one above it, or the gap's own last level where there is none."""
    edges = pressures[max(gap.start - 1, 0):gap.stop + 1]
    return min(edges), max(edges)


def _strip(axes: Any, lines: list[Series], pressures: list[float], size: float) -> None:
    """A column for each series: what was measured, and hatched what was not."""
    from matplotlib.patches import Rectangle

    axes.set_xlim(-0.6, len(lines) - 0.4)
    axes.xaxis.set_ticks(range(len(lines)), [series.short for series in lines])
    axes.tick_params(axis="both", length=0, labelleft=False)
    axes.set_title("measured", fontsize=9, color="#555555")
    for edge in axes.spines.values():
        edge.set_visible(False)
    for column, (label, series) in enumerate(zip(axes.get_xticklabels(), lines)):
        label.set_color(series.colour)
        for gap in gaps(series.values):
            low, high = _edges(gap, pressures)
            axes.add_patch(Rectangle((column - 0.32, low), 0.64, high - low, facecolor="white", edgecolor=series.colour,
                                     hatch=series.hatch * 4, linewidth=0.8))
            axes.plot([column] * len(gap), [pressures[at] for at in gap], linestyle="none", marker="x", color=series.colour, markersize=size,
                      gid=f"{series.name} missing")
        for run in runs(series.values):
            axes.plot([column] * len(run), [pressures[at] for at in run], color=series.colour, marker=series.marker, markersize=size, linewidth=2,
                      gid=f"{series.name} measured {run.start + 1} to {run.stop}")


def _winds(axes: Any, levels: list[Windy]) -> None:
    """A barb for each level with speed and direction, as far as they have room; a level that lacks one is told or has a cross."""
    from math import cos, log, radians, sin

    axes.set_axis_off()
    axes.set_xlim(-1, 1)
    axes.set_title("wind, knots", fontsize=9, color="#555555")
    bottom, top = axes.get_ylim()
    axes.vlines(0, top, bottom, color="#cccccc", linewidth=0.8, zorder=0)
    taken: list[float] = []
    for level in levels:
        height = level.pressure_pa / 100
        free = all(abs(log(height / other)) > log(bottom / top) / 32 for other in taken)
        if level.wind_speed_ms is None or level.wind_direction_deg is None:
            both = level.wind_speed_ms is None and level.wind_direction_deg is None
            missing = "wind" if both else "speed" if level.wind_speed_ms is None else "direction"
            axes.annotate(f"{missing} not\nmeasured" if free and len(levels) <= 40 else "×", (0, height), ha="center", va="center", fontsize=8,
                          color="#555555")
        elif free:
            speed, angle = level.wind_speed_ms * KNOTS, radians(level.wind_direction_deg)
            axes.barbs(0, height, -speed * sin(angle), -speed * cos(angle), length=7, linewidth=1, pivot="tip", clip_on=False)
        taken += [height] if free else []


def _legend(axes: Any, lines: list[Series]) -> None:
    from matplotlib.patches import Patch

    handles, labels = axes.get_legend_handles_labels()
    if any(gaps(series.values) for series in lines):
        handles.append(Patch(facecolor="none", edgecolor="#777777", hatch="///", linewidth=0))
        labels.append("not measured (not dry air)")
    if handles:
        axes.legend(handles, labels, loc="upper right", frameon=True, framealpha=1, fontsize=9)
