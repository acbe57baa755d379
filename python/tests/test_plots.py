import sys
from collections.abc import Callable, Iterator
from pathlib import Path
from typing import Any, cast

import made
import matplotlib
import numpy as np
import pytest
from conftest import EXAMPLES

import ptulab
from ptulab import fits, phasors, plots
from ptulab.bursts import fret
from ptulab.antibunching import coincidences, start_stops
from ptulab.scans import Cube, Scan, cube, image
from ptulab.segments import correlation_by_segments
from ptulab.smfret import BurstVariance

matplotlib.use("Agg")


@pytest.fixture(autouse=True)
def drawn() -> Iterator[Any]:
    """Every figure of a test is drawn, so that nothing fails when it is shown, and closed."""
    yield
    from matplotlib import pyplot

    for number in pyplot.get_fignums():
        pyplot.figure(number).canvas.draw()
    pyplot.close("all")


def labels(axes: Any) -> Any:
    return axes.get_xlabel(), axes.get_ylabel()


def bar(axes: Any) -> Any:
    """The label of the figure's colour bar."""
    return [other.get_ylabel() for other in axes.figure.axes if other is not axes]


@pytest.fixture
def t3(program: str, tmp_path: Path) -> Any:
    plan = tmp_path / "plan.toml"
    plan.write_text(
        "version = 2\ngroup = [{ inputs = [0] }]\nhistogram = [{ group = 1, width = 64, bins = 64 }]\n"
        "trace = [{ group = 1, width = 100000, bins = 30 }, { group = 1, width = 4000000, bins = 1 }]\n"
        "image = [{ group = 1, width = 64, height = 64, dwell = 300, line = 1, frame = 2, stop = 3 }]\n"
        "cube = [{ group = 1, width = 64, height = 64, dwell = 300, line = 1, frame = 2, stop = 3, dwidth = 64, dbins = 32 }]\n"
        "correlation = [{ first = 1, second = 1, lags = 8, levels = 6 }]\n"
    )
    return ptulab.run(plan, EXAMPLES / "scan.ptu", program=program), plan


def test_the_colours_of_lifetimes_go_by_the_pixels_with_photons_enough() -> None:
    """A bright square of 2 to 4 ns in a background of three photons a pixel at any time of 50 ns."""
    draws = np.random.default_rng(5)
    counts = np.zeros((40, 40, 100), dtype=np.int64)
    for y, x in np.ndindex(40, 40):
        bright = 10 <= y < 16 and 10 <= x < 26
        delays = draws.exponential(2.0 if x < 18 else 4.0, 900) if bright else draws.uniform(0, 50, 3)
        counts[y, x] = np.bincount((delays[delays < 50] / 0.5).astype(int), minlength=100)
    made = Cube(Scan(40, 40, 1, time=1), counts, 1, 0, 0, 0.5e-9)
    axes = plots.plot(made)
    least, most = axes.images[0].get_clim()
    assert 1.6 < least < 2.2 and 3.6 < most < 4.6
    shown: list[Any] = [one.images[0].get_array() for one in (axes, plots.plot_lifetimes(made, threshold=1))]
    assert [int(np.isnan(one.filled(np.nan)).sum()) for one in shown] == [40 * 40 - 6 * 16, 0]


def test_tables_of_a_scan(t3: Any) -> None:
    report, _ = t3
    decay = plots.plot(report.table("histogram"))
    assert labels(decay) == ("delay after the sync (ns)", "photons a bin") and decay.get_yscale() == "log"
    assert (decay.lines[0].get_ydata() == report.table("histogram").counts).all()
    assert decay.lines[0].get_xdata()[-1] == pytest.approx(report.table("histogram").seconds[-1] * 1e9)
    trace = plots.plot(report.table("trace"))
    assert labels(trace) == ("time (ms)", "count rate (kHz)")
    assert trace.lines[0].get_ydata().sum() == pytest.approx(report.table("trace").counts.sum() / 0.005 / 1000)
    assert labels(plots.plot(report.table("trace", 2)))[1] == "photons a bin"
    picture = plots.plot(report.table("image"))
    assert labels(picture) == ("column (pixels)", "row (pixels)") and bar(picture) == ["photons a pixel"]
    assert (picture.images[0].get_array() == report.table("image").counts).all()
    lifetimes = plots.plot_lifetimes(report.table("cube"), threshold=20)
    assert bar(lifetimes) == ["mean delay (ns)"] and lifetimes.images[0].get_array().mask.any()
    table = report.table("cube")
    means = phasors.mean_delays(table.counts, table.seconds, threshold=20) * 1e9
    assert np.allclose(lifetimes.images[0].get_array().filled(np.nan), means, equal_nan=True)
    curve = plots.plot(report.table("correlation"))
    assert labels(curve) == ("delay (s)", "G (1 without correlation)") and curve.get_xscale() == "log"


def test_tables_of_two_detectors(program: str, tmp_path: Path, make_file: Callable[..., Path]) -> None:
    draws = np.random.default_rng(2)
    events = sorted((int(time), int(number)) for time, number in zip(draws.integers(0, 20_000, 2000), draws.integers(1, 3, 2000)))
    plan = tmp_path / "plan.toml"
    plan.write_text(
        "version = 2\ngroup = [{ inputs = [1] }, { inputs = [2] }]\nstartstop = [{ start = 1, stop = 2, width = 2, bins = 20 }]\n"
        "coincidence = [{ first = 1, second = 2, reach = 52, width = 5 }]\nfold = [{ groups = [1, 2], window = 5 }]\n"
        "correlation = [{ first = 1, second = 2, lags = 8, levels = 3 }]\n"
    )
    report = ptulab.run(plan, make_file("HydraHarp2T2", events, tick=1e-9), program=program)
    assert labels(plots.plot(report.table("startstop"))) == ("time from start to stop (ns)", "counts")
    assert labels(plots.plot(report.table("coincidence"))) == ("difference of times, second less first (ns)", "pairs a cell")
    fold = plots.plot(report.table("fold"))
    assert [one.get_text() for one in fold.get_xticklabels()] == ["1", "2", "1 2"]
    assert labels(plots.plot(report.table("correlation"))) == ("delay (s)", "pairs over 2^level (not normalised)")
    plan.write_text(plan.read_text() + "".join(f"[[trace]]\ngroup = {group}\nwidth = 99999\nbins = 1\n" for group in (1, 2)))
    told = ptulab.run(plan, make_file("HydraHarp2T2", events), program=program)
    normalised = plots.plot(told.table("coincidence"))
    assert labels(normalised) == ("difference of times, second less first (ticks)", "g2 (1 without correlation)")
    assert labels(plots.plot(told.table("correlation")))[0] == "delay (ticks)"


def test_what_was_counted_here(make_file: Callable[..., Path]) -> None:
    draws = np.random.default_rng(3)
    some: list[tuple[int, ...]] = [(0, made.Bits(1)), *sorted((int(t), int(n), int(d)) for t, n, d in zip(draws.integers(1, 9000, 3000), draws.integers(0, 2, 3000), draws.exponential(20, 3000)))]
    events = ptulab.read_events(make_file("HydraHarp2T3", some, tick=5e-8, resolution=1e-10))
    scan = Scan(8, 1, 1, time=9000, frames=True)
    assert bar(plots.plot(image(events, scan))) == ["photons a pixel"]
    assert bar(plots.plot(cube(events, scan, 4, 32))) == ["mean delay (ns)"]
    assert bar(plots.plot(cube(events.array, scan, 4, 32))) == ["mean delay (ticks)"]
    curve = correlation_by_segments(events, 0, 1, segments=6, levels=3)
    with_bars = plots.plot(curve)
    assert labels(with_bars)[0] == "delay (s)" and "standard error" in with_bars.get_legend().get_texts()[0].get_text()
    assert "correlation" in plots.plot(correlation_by_segments(events, 0, 1, segments=1, levels=2)).get_legend().get_texts()[0].get_text()
    assert labels(plots.plot(coincidences(events, 0, 1, 20)))[0].endswith("(µs)")
    assert labels(plots.plot(coincidences(events.array, 0, 1, 20)))[0].endswith("(sync periods or ticks)")
    assert labels(plots.plot(start_stops(events, 0, 1, 2, 20))) == ("time from start to stop (µs)", "counts")


def test_fits_are_drawn_over_their_data() -> None:
    axis = np.arange(100) * 1e-10
    counts = np.random.default_rng(4).poisson(1000 * np.exp(-axis / 2e-9) + 5)
    fit = fits.fit_tail(counts, axis, 1e-9)
    axes = plots.plot_decay(counts, axis, fit=fit)
    assert axes.lines[1].get_xdata()[0] == pytest.approx(1.0) and axes.get_ylim()[0] > 0
    above, below, like = plots.plot_fit(fit, "delay (s)", "photons a bin", logarithmic=True)
    assert labels(below) == ("delay (s)", "residuals (σ)") and above.get_ylabel() == "photons a bin" and above.get_yscale() == "log"
    assert labels(like) == ("points between residuals", "autocorrelation") and like.lines[0].get_ydata()[0] == pytest.approx(1)
    assert len(plots.plot_fit(fit, axes=axes.figure.subplots(2))) == 2
    delays = np.logspace(-6, 0, 60)
    curve = fits.fit_fcs(delays, fits.fcs_model(delays, 2.0, 1e-3, structure=5.0) + np.random.default_rng(5).normal(0, 0.001, 60))
    assert plots.plot_fit(curve, logarithmic_x=True)[0].get_xscale() == "log"
    ticks = plots.plot_decay(counts, ticks=np.arange(100), fit=fits.fit_tail(counts, np.arange(100), 10))
    assert labels(ticks)[0] == "delay after the sync (ticks)"


def test_correlations_with_a_fit(make_file: Callable[..., Path]) -> None:
    path = make_file("HydraHarp2T2", [(int(t), 1) for t in np.sort(np.random.default_rng(6).integers(0, 20000, 3000))], tick=1e-6)
    curve = correlation_by_segments(ptulab.read_events(path), 1, 1, segments=8, levels=6)
    fit = fits.fit_fcs(np.asarray(curve.seconds), curve.values, curve.errors, dimensions=2)
    axes = plots.plot_correlation(curve, fit=fit)
    assert {one.get_text() for one in axes.get_legend().get_texts()} == {"fit", "mean of segments, standard error"}
    plots.plot_correlation(curve, axes, label="once more")
    assert {"mean of segments, standard error", "once more"} < {one.get_text() for one in axes.get_legend().get_texts()}


def test_phasors_and_bursts() -> None:
    circle = plots.plot_phasors(phasors.phasor_of_lifetime(np.linspace(1, 5, 50), 0.05))
    assert labels(circle) == ("g", "s") and bar(circle) == ["pixels"]
    region = plots.plot_phasors(phasors.phasor_of_lifetime(np.linspace(1, 5, 50), 0.05), corners=[0.2 + 0.2j, 0.6 + 0.2j, 0.4 + 0.6j])
    assert len(region.patches) == 1
    coloured = plots.plot_coloured(np.array([[1.0, np.nan], [2.0, 3.0]]), np.array([[9, 9], [0, 5]]), "lifetime (ns)")
    shown = np.asarray(coloured.images[0].get_array())
    assert bar(coloured) == ["lifetime (ns)"] and shown[0, 1] == pytest.approx([0.5] * 3) and (shown[1, 0] == 0).all()
    counts = [np.random.default_rng(n).poisson(30, 200) for n in range(3)]
    both = plots.plot_fret(fret(*counts))
    assert labels(both) == ("E", "S") and bar(both) == ["bursts a bin"]
    assert labels(plots.plot_fret(fret(*counts[:2]))) == ("E", "bursts a bin")
    ratio = np.array([0.3, 0.32, 0.5, np.nan])
    varied = plots.plot_burst_variance(BurstVariance(ratio, np.array([0.2, 0.22, 0.3, np.nan]), np.array([9, 8, 7, 0]), 5), bins=10)
    assert labels(varied) == ("proximity ratio", "deviation over pieces of 5 photons") and bar(varied) == ["bursts a bin"]
    middles, deviations = varied.containers[0].lines[0].get_data()
    assert middles[3] == pytest.approx((8 * 0.3 + 7 * 0.32) / 15) and 0.2 < deviations[3] < 0.22 and np.isfinite(middles).sum() == 1
    assert varied.lines[-1].get_ydata().max() == pytest.approx(np.sqrt(0.05), rel=1e-3)


def test_matplotlib_is_named_where_it_is_missing(monkeypatch: pytest.MonkeyPatch) -> None:
    monkeypatch.setitem(cast(dict[str, Any], sys.modules), "matplotlib.pyplot", None)
    with pytest.raises(ptulab.MissingLibraryError, match="python3-matplotlib"):
        plots.plot_decay(np.ones(3))


def test_units_keep_numbers_short() -> None:
    for most, unit in ((2.0, "s"), (0.5, "ms"), (3e-5, "µs"), (9e-9, "ns"), (1e-12, "ps"), (1e-14, "ps"), (0.0, "s")):
        axis, name = plots.in_units(np.array([0.0, most]), np.array([0, 1]))
        assert name == unit and (axis[1] >= 1 or most < 1e-12)
    assert plots.in_units(None, np.array([3]), "sync periods") == (np.array([3.0]), "sync periods")
