"""Pictures: no line crosses a level that was not measured, and each gap is marked."""
import pytest
from hypothesis import given, settings
from hypothesis import strategies as st

import capgauze
from capgauze import plot
from commands import run
from helpers import EXAMPLES, ROOT

matplotlib = pytest.importorskip("matplotlib")
pytest.importorskip("matplotlib.quiver")
tenths = st.one_of(st.none(), st.integers(-900, 400).map(lambda number: number / 10))
winds = st.one_of(st.none(), st.integers(0, 900).map(lambda number: number / 10))


@st.composite
def drawn(draw):
    """A sounding with gaps anywhere; its pressures differ, so that a point on the picture is of one level."""
    pressures = sorted(draw(st.lists(st.integers(100, 110_000), unique=True, max_size=9)), reverse=True)
    depression = st.one_of(st.none(), st.integers(0, 400).map(lambda number: number / 10))
    if draw(st.booleans()):
        return capgauze.Sounding(1, 0, [capgauze.Level(pressure, draw(tenths), draw(depression)) for pressure in pressures])
    levels = [capgauze.Windy(pressure, draw(tenths), draw(depression), draw(winds), draw(st.one_of(st.none(), st.integers(0, 359))))
              for pressure in pressures]
    return capgauze.Graded(1, 2**64 - 1, levels, capgauze.CANONICAL)


def crossings(figure, sounding):
    """The segments of a picture that do not go from a level to its neighbour, or go to a level that was not measured."""
    at = {level.pressure_pa / 100: number for number, level in enumerate(sounding.levels)}
    series = {one.colour: one for one in plot.series_of(sounding)}
    out = []
    for axes in figure.axes:
        for line in axes.get_lines():
            if line.get_linestyle() in ("none", "None"):
                continue
            numbers = [at[pressure] for pressure in line.get_ydata()]
            values = series[line.get_color()].values
            out += [(one, other) for one, other in zip(numbers, numbers[1:]) if other - one != 1 or values[one] is None or values[other] is None]
    return out


class TestGaps:
    @given(drawn())
    @settings(max_examples=25)
    def test_no_segment_crosses_a_missing_level(self, sounding):
        figure = plot.draw(sounding)
        assert crossings(figure, sounding) == []
        main = figure.axes[0]
        for series in plot.series_of(sounding):
            points = {(x, y) for line in main.get_lines() if line.get_color() == series.colour for x, y in zip(*line.get_data())}
            assert points == {(value, level.pressure_pa / 100) for value, level in zip(series.values, sounding.levels) if value is not None}
            told = [text.get_text() for text in main.texts if text.get_text().startswith(f"{series.name} not measured")]
            hatched = [patch for patch in main.patches if patch.get_hatch() == series.hatch]
            assert len(told) == len(hatched) == len(plot.gaps(series.values))
            for gap, patch in zip(plot.gaps(series.values), hatched):
                corners = patch.get_patch_transform().transform(patch.get_path().vertices)
                low, high = min(y for _, y in corners), max(y for _, y in corners)
                assert all(low <= sounding.levels[number].pressure_pa / 100 <= high for number in gap)
        figure.canvas.draw()

    def test_a_crossing_is_found(self):
        """What the test above looks for it would find."""
        iced = next(capgauze.soundings(EXAMPLES / "iced.hex"))
        figure = plot.draw(iced)
        there = [(level.temperature_c, level.pressure_pa / 100) for level in iced.levels if level.temperature_c is not None]
        figure.axes[0].plot(*zip(*there), color=plot.series_of(iced)[0].colour)
        assert crossings(figure, iced) == [(1, 3)]

    @given(st.lists(st.one_of(st.none(), st.just(1.0)), max_size=12))
    def test_runs_and_gaps_are_all(self, values):
        parts = sorted(plot.runs(values) + plot.gaps(values), key=lambda part: part.start)
        assert [at for part in parts for at in part] == list(range(len(values)))
        assert all((values[one.start] is None) != (values[other.start] is None) for one, other in zip(parts, parts[1:]))

    def test_a_calm_and_a_wind_that_was_not_measured(self):
        levels = [capgauze.Windy(90_000, 1.0, 1.0, 0.0, 0), capgauze.Windy(80_000, 1.0, 1.0, 5.0, None), capgauze.Windy(70_000, 1.0, 1.0, None, None)]
        side = plot.draw(capgauze.Graded(1, 0, levels, capgauze.CANONICAL)).axes[2]
        assert [text.get_text() for text in side.texts] == ["direction not\nmeasured", "wind not\nmeasured"]
        assert sum(isinstance(drawn, matplotlib.quiver.Barbs) for drawn in side.collections) == 1
        assert len(plot.draw(capgauze.sounding(bytes.fromhex("04010400"))).axes) == 2


class TestCommand:
    def test_the_committed_picture(self, tmp_path):
        committed = (ROOT / "docs/pictures/iced.svg").read_text()
        for name in ("one.svg", "other.svg"):
            ran = run("plot", "examples/iced.hex", "-o", str(tmp_path / name))
            assert (ran.status, ran.out, ran.error) == (0, "", "")
        one, other = ((tmp_path / name).read_text() for name in ("one.svg", "other.svg"))
        assert one == other
        if f"Matplotlib v{matplotlib.__version__}," in committed:
            assert one == committed

    def test_other_frames_and_forms(self, tmp_path):
        assert run("plot", "--frame", "3", "examples/winds.hex", "-o", str(tmp_path / "x.png")).status == 0
        assert (tmp_path / "x.png").read_bytes().startswith(b"\x89PNG")
        for arguments, error in ((["--frame", "3", "examples/rows.hex"], "frame 3 is refused: Repeated (11)"),
                                 (["--frame", "4", "examples/rows.hex"], "frame 4 is refused: HEX: the line is not hexadecimal"),
                                 (["--frame", "9", "examples/rows.hex"], "examples/rows.hex: there is no frame 9"),
                                 (["--least", "canonical", "--frame", "2", "examples/winds.hex"],
                                  "frame 2 is refused: NotCanonical (14); --edition 1 takes it, without its wind")):
            ran = run("plot", *arguments, "-o", str(tmp_path / "no.svg"))
            assert (ran.status, ran.error) == (1, f"capgauze plot: {error}\n")
        assert run("plot", "examples/iced.hex", "-o", "/nowhere/x.svg").error == "capgauze plot: /nowhere/x.svg: No such file or directory\n"
        assert not (tmp_path / "no.svg").exists()
        for edition, barbs in (("1", False), ("2", True)):
            assert run("plot", "--edition", edition, "examples/winds.hex", "-o", str(tmp_path / f"{edition}.svg")).status == 0
            assert ("Barbs" in (tmp_path / f"{edition}.svg").read_text()) == barbs
