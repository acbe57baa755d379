from collections.abc import Callable
from dataclasses import replace
from pathlib import Path
from typing import Any

import made
import multipletau
import numpy as np
import pytest
import random_events
from hypothesis import given, settings
from hypothesis import strategies as st

import ptulab
from ptulab import antibunching
from ptulab.segments import correlation, correlation_by_segments, delays, edges, split, together, window

GROUPS = st.sampled_from([(1,), (2,), (1, 2), (2, 3)])


@pytest.fixture(scope="session")
def folder(tmp_path_factory: pytest.TempPathFactory) -> Path:
    return tmp_path_factory.mktemp("segments")


def report_of(program: str, folder: Path, first: Any, second: Any, lags: int, levels: int, path: Any) -> Any:
    plan = f"group = [{{ inputs = {list(first)} }}, {{ inputs = {list(second)} }}]\n"
    plan += f"correlation = [{{ first = 1, second = 2, lags = {lags}, levels = {levels} }}]\n"
    plan += "".join(f"[[trace]]\ngroup = {group}\nwidth = {2**62}\nbins = 1\n" for group in (1, 2))
    (folder / "plan.toml").write_text(plan)
    return ptulab.run(folder / "plan.toml", path, program=program)


@settings(max_examples=50, deadline=None)
@given(random_events.rising, GROUPS, GROUPS, st.sampled_from([2, 4, 6, 16]), st.integers(1, 8), st.sampled_from(["HydraHarp2T2", "PicoHarpT3"]))
def test_correlations_are_those_of_ptu(program: str, folder: Path, events: Any, first: Any, second: Any, lags: int, levels: int, kind: str) -> None:
    path = made.write(folder / "data.ptu", kind, events)
    table = report_of(program, folder, first, second, lags, levels, path).table("correlation")
    photons = ptulab.read_events(path).photons
    masks = [np.isin(photons["number"], group) for group in (first, second)]
    assert (correlation(photons["time"], *masks, lags=lags, levels=levels) == table.counts).all()
    ticks, level = delays(lags, levels)
    assert (ticks == table.ticks).all() and (level == table.levels).all()


def blinking(seed: int, ticks: int = 60000, dark: int = 40) -> Any:
    """Photons at two detectors of a source that switches on and off at random: g = 1 + exp(-t / (dark / 2))."""
    draws = np.random.default_rng(seed)
    on = np.cumsum(draws.random(ticks) < 1 / dark) % 2 == 0
    found = [(int(time), number) for number in (1, 2) for time in np.flatnonzero(on & (draws.random(ticks) < 0.2))]
    return sorted(found)


def test_a_whole_measurement_is_one_segment(program: str, folder: Path) -> None:
    path = made.write(folder / "one.ptu", "HydraHarp2T2", [(0, 1), *blinking(1)], tick=1e-6)
    table = report_of(program, folder, (1,), (2,), 16, 6, path).table("correlation")
    curve = correlation_by_segments(ptulab.read_events(path), 1, 2, segments=1, lags=16, levels=6)
    assert np.allclose(curve.values, table.normalised(), rtol=1e-3) and np.isnan(curve.errors).all()
    assert np.allclose(np.asarray(curve.seconds), table.seconds, rtol=1e-12)


def test_errors_are_those_of_the_mean(folder: Path) -> None:
    """The known curve lies within four errors."""
    curves = []
    for seed in range(3):
        path = made.write(folder / f"{seed}.ptu", "HydraHarp2T2", blinking(seed))
        curves.append(correlation_by_segments(path, 1, 2, segments=10, lags=8, levels=4))
    known = 1 + np.exp(-curves[0].ticks / 20.0)
    short = curves[0].levels < 2
    for curve in curves:
        assert (np.abs(curve.values - known)[short] < 4 * curve.errors[short] + 0.03).all()
    assert curves[0].segments.shape == (10, len(known)) and curves[0].seconds is None
    assert curves[0].rates[0] == pytest.approx(0.1, rel=0.1)


def test_measurements_are_taken_together_by_their_photons(make_file: Callable[..., Path]) -> None:
    """A file and one of three times its length: each of their segments counts by its photons, and a fit takes the mean and its error from them."""
    files = [make_file("HydraHarp2T2", blinking(seed, ticks), name=f"{seed}.ptu") for seed, ticks in ((1, 30_000), (2, 90_000))]
    curves = [correlation_by_segments(path, [1], [1], segments=5, lags=8, levels=levels) for path, levels in zip(files, (4, 6))]
    whole, cells = together(curves), len(curves[0].ticks)
    photons = [float(np.count_nonzero(ptulab.read_events(path).numbers == 1)) for path in files]
    weights = np.repeat(np.array(photons) / 5, 5)[:, None]
    rows = np.concatenate([one.segments[:, :cells] for one in curves])
    mean = (rows * weights).sum(axis=0) / weights.sum()
    error = np.sqrt((weights**2 * (rows - mean) ** 2).sum(axis=0) / weights.sum() ** 2 * 10 / 9)
    assert whole.values == pytest.approx(mean, rel=1e-3) and whole.errors == pytest.approx(error, rel=1e-2)  # what is left over at the ends counts not
    assert whole.segments.mean(axis=0) == pytest.approx(whole.values) and whole.segments.std(axis=0, ddof=1) / np.sqrt(10) == pytest.approx(whole.errors)
    assert 2.9 < curves[1].length / curves[0].length < 3.1 and whole.length == sum(one.length for one in curves) and whole.ticks.tolist() == curves[0].ticks.tolist()
    assert whole.rates[0] * whole.length == pytest.approx(sum(photons), rel=1e-3)


def test_one_measurement_together_is_itself(make_file: Callable[..., Path]) -> None:
    path = make_file("HydraHarp2T2", blinking(3), tick=1e-6)
    curve = correlation_by_segments(path, [1], [1], segments=4, lags=8, levels=3)
    whole = together([curve])
    assert whole.values == pytest.approx(curve.values) and whole.errors == pytest.approx(curve.errors) and whole.unit_seconds == 1e-6
    odd = curve.segments.copy()
    odd[1, 2] = odd[:, 5] = np.nan  # a segment without a pair to expect, and none with one
    holes = together([replace(curve, segments=odd), replace(curve, segments=odd)])
    assert holes.values[2] == pytest.approx(np.nanmean(odd[:, 2])) and np.isnan(holes.values[5]) and np.isnan(holes.errors[5])
    assert holes.errors[2] == pytest.approx(np.nanstd(np.tile(odd[:, 2], 2)) / np.sqrt(5))
    for other in (replace(curve, unit_seconds=1e-7), replace(curve, ticks=curve.ticks + 1)):
        with pytest.raises(ptulab.UnlikeError):
            together([curve, other])
    nothing: list[Any] = [[], [replace(curve, rates=(0.0, 0.0))]]
    for none in nothing:
        with pytest.raises(ValueError, match="no photons"):
            together(none)


def test_each_segment_is_correlated_from_its_beginning(make_file: Callable[..., Path]) -> None:
    """The same photons twice, 1001 ticks apart: both segments have the same curve, also on levels of wide bins."""
    one = [(0, 1), *sorted((int(t), 1 + int(t) % 2) for t in np.random.default_rng(3).integers(1, 1000, 400)), (1000, 2)]
    path = make_file("HydraHarp2T2", one + [(time + 1001, number) for time, number in one])
    curve = correlation_by_segments(path, 1, 2, segments=2, lags=8, levels=7)
    assert np.array_equal(curve.segments[0], curve.segments[1]) and (curve.errors == 0).all()


def test_windows_and_segments(make_file: Callable[..., Path]) -> None:
    events = [(0, 1), (5, 2), (9, 3), (12, 1), (20, 2), (22, 1)]
    path = make_file("HydraHarp2T2", events)
    assert window(path, 5, 20)["time"].tolist() == [5, 9, 12]
    assert edges(0, 22, 2).tolist() == [0, 11, 22]
    parts = [part["time"].tolist() for part in split(ptulab.read_events(path), 2)]
    assert parts == [[0, 5, 9], [12, 20]]
    assert [len(part) for part in split(ptulab.read_events(path).array, 1)] == [6]
    assert len(window(make_file("HydraHarp2T2", [], name="none.ptu"), 0, 9)) == 0


@settings(max_examples=50, deadline=None)
@given(random_events.rising, st.integers(1, 5))
def test_segments_hold_every_event_but_those_left_over(folder: Path, events: Any, number: int) -> None:
    path = made.write(folder / "split.ptu", "HydraHarp2T2", events)
    array = ptulab.read_events(path).array
    first, last = int(array["time"].min()), int(array["time"].max())
    if last + 1 - first < number:
        with pytest.raises(ValueError):
            list(split(array, number))
        return
    at = edges(first, last, number)
    parts = list(split(array, number))
    assert len(set(np.diff(at))) == 1 and at[-1] > last + 1 - number
    assert np.concatenate(parts)["record"].tolist() == array["record"][array["time"] < at[-1]].tolist()


def test_what_cannot_be_correlated(make_file: Callable[..., Path]) -> None:
    path = make_file("HydraHarp2T2", [])
    calls: list[Callable[[], object]] = [
        lambda: correlation_by_segments(path, 1, 2),
        lambda: list(split(ptulab.read_events(path), 2)),
        lambda: edges(0, 5, 0),
        lambda: delays(7, 3),
        lambda: delays(8, 41),
    ]
    for call in calls:
        with pytest.raises(ValueError):
            call()
    lonely = correlation_by_segments(make_file("HydraHarp2T2", [(0, 1), (9, 1)], name="lonely.ptu"), 1, 2, segments=2, levels=2)
    assert np.isnan(lonely.values).all()


def on_and_off(seed: int, seconds: float, tick: float, rate: float, stays: float) -> Any:
    """Times and inputs of photons of a light that stays on, and off, for ``stays`` seconds in the mean: 1 + exp(-2 t / stays)."""
    draws = np.random.default_rng(seed)
    turns = np.cumsum(draws.exponential(stays, int(seconds / stays * 1.2) + 100))
    times = np.sort(draws.uniform(0, seconds, draws.poisson(2 * rate * seconds)))
    times = times[np.searchsorted(turns, times) % 2 == 0]
    events = np.zeros(len(times), ptulab.EVENT)
    events["time"], events["number"] = np.rint(times / tick), draws.integers(1, 3, len(times))
    return events


@pytest.mark.parametrize("tick", [1e-12, 4e-12])
def test_segments_of_minutes_in_ticks_of_picoseconds(tick: float) -> None:
    """Two minutes, so 1e14 ticks: levels go up to an eighth of a segment, and the curve is the known one."""
    events = on_and_off(5, 120.0, tick, 4000, 2e-3)
    curve = correlation_by_segments(events, 1, 2, segments=10)
    length = 120 / tick / 10
    assert length / 16 < curve.ticks[-1] <= length / 8 and curve.levels[-1] == curve.levels.max() <= 39
    seconds, width = curve.ticks * tick, 2.0**curve.levels * tick
    seen = (seconds > 1e-5) & (seconds < 4e-3)
    half = width / 2e-3  # of a bin, in which the curve falls
    known = 1 + np.exp(-seconds / 1e-3) * (np.sinh(half) / half) ** 2
    assert (np.abs(curve.values - known) < 4.5 * curve.errors + 0.01)[seen].all()
    assert (curve.errors[seen] < 0.1).all() and curve.rates[0] / tick == pytest.approx(2000, rel=0.1)
    few = correlation_by_segments(events, 1, 2, segments=10, levels=20)
    assert np.array_equal(few.values, curve.values[: len(few.values)], equal_nan=True)


@pytest.mark.parametrize(("last", "levels"), [(2**32, 22), (2**62 - 1, 40), (40, 1), (2558, 1), (2559, 2)])
def test_levels_are_those_of_a_segment(last: int, levels: int) -> None:
    events = np.zeros(3, ptulab.EVENT)
    events["time"], events["number"] = [0, 5, last], [1, 2, 2]
    curve = correlation_by_segments(events, 1, 2, segments=10)
    assert curve.levels[-1] + 1 == levels and curve.segments.shape == (10, len(curve.ticks))
    length = (last + 1) // 10
    assert curve.segments[0][4] == pytest.approx(length**2 / max(length - 5, 1) if length > 5 else np.nan, nan_ok=True)


def test_told_errors_of_segments_are_the_scatter_of_measurements() -> None:
    """200 measurements, each of 10 segments: their scatter is the error that is told, to 10 % in the mean of all cells."""
    curves = [correlation_by_segments(on_and_off(seed, 0.05, 1e-6, 1e5, 40e-6), 1, 2, lags=8, levels=5) for seed in range(200)]
    values, errors = (np.array([getattr(curve, what) for curve in curves]) for what in ("values", "errors"))
    told = np.sqrt((errors**2).mean(axis=0)) / values.std(axis=0, ddof=1)
    assert told.mean() == pytest.approx(1, abs=0.05) and told == pytest.approx(np.ones(24), abs=0.2)
    known = 1 + np.exp(-curves[0].ticks / 20.0)
    assert np.abs(values.mean(axis=0) - known)[:16].max() < 0.015


def test_weights_of_any_size_are_counted_exactly() -> None:
    """Bins of so many photons that no floating-point number holds their products, dense and far apart."""
    great = np.array([2**29 + 1, 2**29 + 3, 2**29 + 5], np.int64)
    for step in (1, 1000):
        counts = antibunching.pair_counts(step * np.arange(3, dtype=np.int64), great, great, 2 * step)
        one, two = int(great[0] * great[1] + great[1] * great[2]), int(great[0] * great[2])
        assert [int(counts[0]), int(counts[step]), int(counts[2 * step])] == [int((great**2).sum()), one, two]


def test_lags_that_no_correlation_has() -> None:
    with pytest.raises(ValueError):
        delays(2**20 + 2, 40)
    assert delays(2**10, 40)[0][-1] == 2**49 and len(delays(2**20, 1)[0]) == 2**20


def test_cells_are_those_of_multipletau() -> None:
    """Its sums over the trace of the same light, of a length that the widest bin divides: equal, to the last pair."""
    draws, length = np.random.default_rng(11), 2**16
    shines = np.cumsum(draws.random(length) < 1 / 800) % 2 == 1
    first, second = (shines & (draws.random(length) < 0.05) for _ in range(2))
    sums, _ = multipletau.correlate(second.astype(float), first.astype(float), m=16, ret_sum=True, normalize=False)
    times = np.flatnonzero(first | second)
    ours = correlation(times, first[times], second[times], lags=16, levels=9)
    ticks, level = delays(16, 9)
    assert (sums[1 : 1 + len(ours), 0] == ticks).all()
    assert ours.tolist() == np.rint(sums[1 : 1 + len(ours), 1] * 4.0**level).astype(int).tolist()
