"""Axes with their units, as xarray and pandas have them: seconds and micrometres where the file tells them."""

import inspect
import sys
from collections.abc import Callable
from pathlib import Path
from typing import Any, cast

import numpy as np
import pytest
from conftest import EXAMPLES
from made import Bits

import ptulab
from ptulab import Plan, antibunching, bursts, fits, intensity, pixels, scans, segments, smfret
from ptulab._values import Compared
from ptulab.errors import MissingLibraryError
from ptulab.many import LeftFile, SummedFiles

T3 = "HydraHarp2T3"
SIZED = {"ImgHdr_PixResol": 0.25, "ImgHdr_PixX": 4}


@pytest.fixture
def path(make_file: Callable[..., Path]) -> Path:
    """A line of four pixels of ten sync periods of 50 ns, with a photon in the first and two in the last one."""
    return make_file(T3, [(0, Bits(1)), (1, 0, 7), (35, 0, 9), (36, 0, 9), (40, Bits(2))], tick=50e-9, resolution=1e-9, **SIZED)


def test_axes_of_tables(path: Path, program: str) -> None:
    pytest.importorskip("xarray")
    plan = Plan().group("all", 0).histogram("all", width="2 ns", bins=6).trace("all", width="1 us", bins=3)
    plan = plan.cube("all", width=4, height=1, dwell="10 periods", line=1, dwidth="4 ticks", dbins=4)
    report = ptulab.run(plan, path, program=program)
    decay, trace = (report.table(kind).to_xarray() for kind in ("histogram", "trace"))
    assert decay.dims == ("delay",) and decay.delay.values == pytest.approx(2e-9 * np.arange(6)) and decay.sel(delay=slice(7e-9, 9e-9)).item() == 2
    assert trace.dims == ("time",) and trace.time.values == pytest.approx([0, 1e-6, 2e-6]) and trace.values.tolist() == [1, 2, 0]
    cube = report.table("cube").to_xarray(ptulab.read_header(path))
    assert cube.dims == ("row", "column", "delay") and cube.column.values.tolist() == [0.125, 0.375, 0.625, 0.875] and cube.column.attrs == {"units": "um"}
    assert cube.sel(column=0.9, row=0.1, method="nearest").values.tolist() == [0, 0, 2, 0] and cube.column_number.values.tolist() == [0, 1, 2, 3]
    assert report.table("cube").to_xarray().column.attrs == {"units": "number"}


def test_axes_of_pictures(path: Path) -> None:
    pytest.importorskip("xarray")
    scan = scans.Scan(4, 1, line=1, stop=2)
    picture, cube = scans.image(path, scan).to_xarray(), scans.cube(path, scan, 4, 3).to_xarray()
    assert picture.values.tolist() == [[1, 0, 0, 2]] and picture.column.values.tolist() == [0.125, 0.375, 0.625, 0.875] and picture.attrs == {"outside": 0}
    assert cube.dims == ("row", "column", "delay") and cube.delay.values == pytest.approx([0, 4e-9, 8e-9]) and cube.attrs == {"outside": 0, "over": 0}
    frames = scans.image(path, scans.Scan(4, 1, line=1, stop=2, frame=1, frames=True)).to_xarray()
    assert frames.dims == ("frame", "row", "column") and frames.sum().item() == 3


def test_axes_of_curves(make_file: Callable[..., Path]) -> None:
    pytest.importorskip("xarray")
    path = make_file("HydraHarp2T2", [(time, 1 + time % 2) for time in range(200)], tick=1e-9)
    curve = segments.correlation_by_segments(path, 1, 2, segments=2, levels=2).to_xarray()
    assert set(curve.data_vars) == {"values", "errors"} and curve.delay.values[:2] == pytest.approx([1e-9, 2e-9]) and curve.level.values[-1] == 1
    long = ptulab.LongTrace(5, 10, np.array([0, 3]), np.array([4, 1]))
    assert long.to_xarray(1e-3).time.values == pytest.approx([5e-3, 35e-3]) and long.to_xarray().time.values.tolist() == [5, 35]


def test_axes_of_pairs(make_file: Callable[..., Path], path: Path) -> None:
    pytest.importorskip("xarray")
    pairs = antibunching.coincidences(make_file("HydraHarp2T2", [(0, 1), (3, 2), (9, 1), (10, 2)], "two.ptu", tick=1e-9), 1, 2, 4, width=3)
    found = pairs.to_xarray()
    assert found.delay.values == pytest.approx([-3e-9, 0, 3e-9]) and found.delay_ticks.values.tolist() == [-3, 0, 3]
    assert found.delay.attrs == {"units": "s"} and found["pairs"].values.tolist() == [0, 1, 1]
    assert all(np.array_equal(found[name], array) for name, array in zip(("values", "errors"), antibunching.g2(pairs)))
    assert pairs.to_pandas()[["delay_ticks", "pairs"]].values.tolist() == [[-3, 0], [0, 1], [3, 1]]
    times = antibunching.start_stops(path, 0, 0, 2, 3)
    assert times.to_xarray().delay.values == pytest.approx([0, 1e-7, 2e-7]) and times.to_xarray().attrs == {"over": 1}
    assert times.to_pandas()[["delay_ticks", "pairs"]].values.tolist() == [[0, 1], [2, 0], [4, 0]]
    untold = antibunching.StartStops(np.array([1]), 2, 0).to_xarray()
    assert untold.delay.values.tolist() == [0] and untold.delay.attrs == {"units": "ticks"}


def test_axes_of_lifetimes() -> None:
    pytest.importorskip("xarray")
    each = np.arange(12.0).reshape(2, 3, 2)
    found = pixels.Lifetimes(each, each + 1, each + 2).to_xarray(0.5)
    assert found["lifetimes"].dims == ("row", "column", "term") and found["mean"].dims == ("row", "column") and found.term.values.tolist() == [1, 2]
    assert found.column.values.tolist() == [0.25, 0.75, 1.25] and found.row.attrs == {"units": "um"} and found["errors"].sel(term=2, row=0.75, column=1.25) == 13
    assert found["mean"].sel(row=0.25, column=0.25).item() == pytest.approx(2) and found["amplitudes"].sum() == 66
    some = pixels.to_xarray({"g": np.ones((4, 2, 3)), "delay": np.zeros((4, 2, 3))})
    assert some["g"].dims == ("frame", "row", "column") and some.column.attrs == {"units": "number"} and set(some.data_vars) == {"g", "delay"}
    wrong: list[dict[str, Any]] = [{}, {"flat": np.ones(4)}, {"one": np.ones((2, 2)), "other": np.ones((2, 3))}]
    for pictures in wrong:
        with pytest.raises(ValueError, match="picture"):
            pixels.to_xarray(pictures)


def test_axes_of_a_first_look(path: Path, make_file: Callable[..., Path], program: str) -> None:
    pytest.importorskip("xarray")
    found = ptulab.info(path, program=program).to_xarray()
    assert found.input.values.tolist() == [0] and found["decays"].values.tolist() == [[0] * 7 + [1, 0, 2]] and found["decays"].sel(delay=7e-9, method="nearest") == 1
    assert found["traces"].sum() == 3 and found.time.values[:2] == pytest.approx([0, 50e-9]) and found.time_ticks.values[1] == 1
    two = ptulab.info(make_file("HydraHarp2T2", [(0, 2), (5, 1), (6, 1)], "two.ptu", tick=1e-9), program=program).to_xarray()
    assert two["traces"].sel(input=1).sum() == 2 and "decays" not in two
    assert ptulab.info(make_file(T3, [], "none.ptu", tick=50e-9), program=program).to_xarray()["traces"].shape == (0, 0)


def test_a_fit_as_lists() -> None:
    pytest.importorskip("xarray"), pytest.importorskip("lmfit")
    axis = np.arange(40) * 0.5
    fit = fits.fit_tail(np.random.default_rng(1).poisson(200 * np.exp(-axis / 4)), axis, 0.0, fixed={"background": 0.0}, bounds={"lifetime_1": (1, 9)})
    points, lines = fit.to_xarray(), fit.to_pandas().set_index("name")
    assert points["axis"].values.tolist() == axis.tolist() and points["curve"].values.tolist() == fit.curve.tolist() and points["axis"].attrs == {}
    assert points["data"].sum() == fit.data.sum() and points["residuals"].values.tolist() == fit.residuals.tolist() and points.attrs == {"reduced": fit.reduced}
    assert lines["value"].to_dict() == fit.values and lines.loc["lifetime_1"].tolist() == [fit.values["lifetime_1"], fit.errors["lifetime_1"], True, 1, 9]
    assert not lines.loc["background", "free"] and np.isnan(lines.loc["background", "error"])


def test_lists_of_molecules(make_file: Callable[..., Path]) -> None:
    """Bursts with their photons, E and S, variances and windows of a background; levels of brightness."""
    pytest.importorskip("pandas")
    photons = ptulab.read_events(make_file("HydraHarp2T2", [*((100 + n, 1) for n in range(6)), (900, 2), *((2000 + n, 2) for n in range(4))], tick=1e-6)).photons
    found = bursts.find_bursts(photons, 5e5, minimum=4, m=3)
    table = bursts.to_pandas(found, photons)
    assert table[["first", "last", "photons"]].values.tolist() == [[0, 5, 6], [7, 10, 4]]
    assert table[["start", "stop", "duration"]].values == pytest.approx(np.array([[1e-4, 1.05e-4, 5e-6], [2e-3, 2.003e-3, 3e-6]]))
    assert bursts.to_pandas(found, photons.times, unit_seconds=1e-3)["start"].tolist() == [0.1, 2.0]
    one = bursts.fret(np.array([3, 1]), np.array([1, 3]), np.array([4, 12])).to_pandas()
    assert one.to_dict("list") == {"E": [0.25, 0.75], "S": [0.5, 0.25], "donor": [3, 1], "acceptor": [1, 3], "direct": [4, 12]}
    assert list(bursts.fret(np.array([3]), np.array([1])).to_pandas().columns) == ["E", "donor", "acceptor"]
    varied = smfret.BurstVariance(np.array([0.5]), np.array([0.1]), np.array([7]), 5).to_pandas()
    assert varied.to_dict("list") == {"E": [0.5], "deviation": [0.1], "pieces": [7]}
    windows = bursts.Background(np.array([0.0, 10, 20]), np.array([5.0, 6]), np.array([1.0, 2]), np.array([0.1, 0.2]), 0.5).to_pandas()
    assert windows.values.tolist() == [[0, 5, 5, 1, 0.1], [5, 10, 6, 2, 0.2]] and list(windows.columns) == ["start", "stop", "rate", "error", "tail"]
    levels = intensity.Levels(np.array([0, 10, 30]), np.array([4, 100]))
    assert levels.to_pandas().values.tolist() == [[0, 10, 10, 4, 0.4, 0.2], [10, 30, 20, 100, 5, 0.5]]
    assert levels.to_pandas(0.5).values.tolist() == [[0, 5, 5, 4, 0.8, 0.4], [5, 15, 10, 100, 10, 1]]
    assert list(levels.to_pandas().columns) == ["start", "stop", "duration", "photons", "rate", "error"]


AXES = {"Coincidences", "Cube", "Curve", "Fit", "Image", "Info", "Lifetimes", "LongTrace", "StartStops", "Table"}
LISTS = {"Background", "BurstVariance", "Coincidences", "Curve", "Events", "Fit", "Fret", "Info", "Levels", "LongTrace", "StartStops", "SummedFiles", "Table"}
NEITHER = {"Head", "Header", "Input", "LeftFile", "Report"}  # lines of one, and what has the others


def test_results_with_axes_and_lists() -> None:
    """Each result of the package, which is compared by its values, or of many files, is among these."""
    modules = [one for one in (getattr(ptulab, name) for name in ptulab.__all__) if inspect.ismodule(one)]
    names = [(module, name) for module in modules for name in module.__all__]
    classes = {one for module, name in names if inspect.isclass(one := getattr(module, name))}
    results = {one for one in classes if issubclass(one, Compared) or one in (SummedFiles, LeftFile, ptulab.Head)}
    assert {one.__name__ for one in results} == AXES | LISTS | NEITHER
    for name, wanted in (("to_xarray", AXES), ("to_pandas", LISTS)):
        assert {one.__name__ for one in classes if hasattr(one, name)} == wanted


def test_lists(path: Path, program: str) -> None:
    pytest.importorskip("pandas")
    events = ptulab.read_events(path).to_pandas()
    assert events["time"].tolist() == [0, 1, 35, 36, 40] and events[~events["marker"]]["dtime"].tolist() == [7, 9, 9]
    assert ptulab.info(path, program=program).to_pandas()[["number", "photons"]].values.tolist() == [[0, 3]]
    files = SummedFiles(None, ("a", "b"), (LeftFile("c", 17, "cut"),), (("b", "odd"),)).to_pandas()
    assert files.values.tolist() == [["a", True, ""], ["b", True, "odd"], ["c", False, "cut"]]
    long = ptulab.LongTrace(5, 10, np.array([0, 3]), np.array([4, 1])).to_pandas(0.5)
    assert long.to_dict("list") == {"time": [2.5, 17.5], "time_ticks": [5, 35], "photons": [4, 1]}
    curve = segments.Curve(np.array([1, 2]), np.array([0, 0]), np.array([3.0, 2.0]), np.array([0.1, 0.2]), np.ones((2, 2)), 0.5).to_pandas()
    assert curve.values.tolist() == [[0.5, 1, 0, 3, 0.1], [1, 2, 0, 2, 0.2]] and list(curve.columns) == ["delay", "delay_ticks", "level", "values", "errors"]
    fold = ptulab.run(Plan().group("a", 0).histogram("a", bins=9), EXAMPLES / "scan.ptu", program=program).table("histogram").to_pandas()
    assert list(fold.columns) == ["delay", "delay_ticks", "count"] and len(fold) == 9


def test_without_the_libraries(monkeypatch: pytest.MonkeyPatch, path: Path) -> None:
    for name in ("pandas", "xarray"):
        monkeypatch.setitem(cast(dict[str, Any], sys.modules), name, None)
    with pytest.raises(MissingLibraryError, match="python3-pandas"):
        ptulab.read_events(path).to_pandas()
    with pytest.raises(MissingLibraryError, match="python3-xarray"):
        scans.image(path, scans.Scan(4, 1, line=1, stop=2)).to_xarray()


def test_exceptions_end_in_error() -> None:
    assert all(name.endswith("Error") for name in ptulab.errors.__all__)
