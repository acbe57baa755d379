import sys
import tracemalloc
import types
from collections.abc import Callable
from pathlib import Path
from typing import Any, Literal, cast

import lmfit
import made
import numpy as np
import pytest
from hypothesis import given, settings
from hypothesis import strategies as st
from lmfit import lineshapes
from scipy import stats
from simulated import told_over_scatter

import ptulab
from ptulab import _fitting, antibunching, fits, phasors, segments
from ptulab.antibunching import coincidences
from ptulab.scans import Scan, cube
from ptulab.tables import Measurement, empty_table

WIDTH, PERIOD = 0.05, 25.0  # nanoseconds of a bin and of the excitation's period
BINS = round(PERIOD / WIDTH)


def decayed(seed: int, lifetimes: list[float], parts: list[float], photons: int, background: float = 0.0, late: float = 0.0, wide: float = 0.12, pulse_at: float = 2.0) -> Any:
    """Histograms of a decay and of the pulse, photon by photon: a pulse, an exponential delay, the time in its period."""
    draws = np.random.default_rng(seed)
    pulse = draws.normal(pulse_at, wide, photons * 5)
    chosen = draws.choice(len(lifetimes), photons, p=parts)
    delays = draws.normal(pulse_at + late, wide, photons) + draws.exponential(np.array(lifetimes)[chosen])
    noise = draws.uniform(0, PERIOD, draws.poisson(background * BINS))
    edges = np.arange(BINS + 1) * WIDTH
    return np.histogram(np.concatenate((delays % PERIOD, noise)), edges)[0], np.histogram(pulse % PERIOD, edges)[0]


def within(fit: fits.Fit, name: str, known: float, errors: float = 4) -> bool:
    return abs(fit.values[name] - known) < errors * fit.errors[name]


def test_a_tail_tells_its_lifetime() -> None:
    counts, _ = decayed(1, [2.6], [1.0], 100_000, background=3.0)
    axis = np.arange(BINS) * WIDTH
    fit = fits.fit_tail(counts, axis, (3.0, 20.0))
    assert within(fit, "lifetime_1", 2.6) and fit.errors["lifetime_1"] < 0.03
    assert 0.8 < fit.reduced < 1.2 and fit.axis[0] >= 3.0 and fit.axis[-1] < 20.0
    assert fit.lmfit.params["lifetime_1"].max == pytest.approx(100 * (fit.axis[-1] - fit.axis[0]))
    assert len(fit.curve) == len(fit.data) == len(fit.residuals)


def test_two_terms_of_a_tail() -> None:
    counts, _ = decayed(2, [0.6, 4.0], [0.5, 0.5], 1_000_000)
    fit = fits.fit_tail(counts, np.arange(BINS) * WIDTH, (2.5, 22.0), terms=2)
    times = sorted(fit.values[f"lifetime_{n}"] for n in (1, 2))
    assert times == pytest.approx([0.6, 4.0], rel=0.1)
    assert fits.mean_lifetime(fit) < fits.mean_lifetime(fit, by="intensity")
    other: Any = "Intensity"
    with pytest.raises(ValueError, match="by Intensity of lifetimes, by amplitude or by intensity"):
        fits.mean_lifetime(fit, by=other)


def test_reconvolution_tells_lifetimes_as_short_as_the_pulse() -> None:
    for lifetime in (0.2, 3.0):
        counts, pulse = decayed(3, [lifetime], [1.0], 300_000, background=2.0, late=0.03)
        fit = fits.fit_reconvolution(counts, pulse, WIDTH, period=PERIOD)
        assert fit.values["lifetime_1"] == pytest.approx(lifetime, rel=0.02)
        assert fit.values["shift"] == pytest.approx(0.03, abs=0.01)
        assert fit.values["amplitude_1"] == pytest.approx(300_000, rel=0.01) and fit.reduced < 1.6


def test_a_decay_runs_over_into_the_next_period_and_without_one_over_the_end() -> None:
    counts, pulse = decayed(4, [9.0], [1.0], 500_000)
    held = fits.fit_reconvolution(counts, pulse, WIDTH, period=PERIOD, fixed={"shift": 0.0})
    assert held.values["lifetime_1"] == pytest.approx(9.0, rel=0.02) and held.values["shift"] == 0
    counts, pulse = decayed(4, [2.0], [1.0], 500_000, pulse_at=12.0)
    cut = slice(0, 300)
    open_end = fits.fit_reconvolution(counts[cut], pulse[cut], WIDTH)
    assert open_end.values["lifetime_1"] == pytest.approx(2.0, rel=0.03)


def test_a_long_decay_without_a_period_is_cut_by_the_end() -> None:
    draws, edges = np.random.default_rng(11), np.arange(BINS + 1) * WIDTH
    pulse = draws.normal(2.0, 0.12, 400_000)
    counts = np.histogram(draws.normal(2.0, 0.12, 400_000) + draws.exponential(12.0, 400_000), edges)[0]
    fit = fits.fit_reconvolution(counts, np.histogram(pulse, edges)[0], WIDTH)
    assert within(fit, "lifetime_1", 12.0) and within(fit, "amplitude_1", 400_000) and fit.errors["lifetime_1"] < 0.3


def test_two_terms_of_a_reconvolution() -> None:
    counts, pulse = decayed(5, [0.5, 3.5], [0.4, 0.6], 1_000_000, background=1.0)
    fit = fits.fit_reconvolution(counts, pulse, WIDTH, period=PERIOD, terms=2)
    assert sorted(fit.values[f"lifetime_{n}"] for n in (1, 2)) == pytest.approx([0.5, 3.5], rel=0.06)
    by_photons = fits.mean_lifetime(fit, by="intensity")
    assert by_photons == pytest.approx(0.4 * 0.5 + 0.6 * 3.5, rel=0.03) and fits.mean_lifetime(fit) < by_photons


@settings(max_examples=50, deadline=None)
@given(st.floats(0.05, 50), st.floats(0.01, 2))
def test_bins_of_a_decay_are_its_integrals(lifetime: float, width: float) -> None:
    """Of a uniform excitation in bin 0: compared with a numeric integral, and all bins of a circle are the whole."""
    decay = fits.decay_of_bins(np.arange(40) * width, lifetime, width)
    places = (np.arange(400) + 0.5) / 400 * width
    edges = np.arange(1, 41)[:, None] * width - places
    until = 1 - np.exp(-edges / lifetime)
    numeric = np.diff(until, axis=0, prepend=0).mean(axis=1)
    assert np.allclose(decay, numeric, atol=1e-4, rtol=1e-3)
    assert fits.decay_of_bins(np.arange(40) * width, lifetime, width, 40 * width).sum() == pytest.approx(1, rel=1e-9)


def test_a_decay_much_shorter_than_a_bin() -> None:
    with np.errstate(over="raise", divide="raise", invalid="raise"):
        for period in (None, 4.0):
            assert fits.decay_of_bins(np.arange(4.0), 1e-4, 1.0, period) == pytest.approx([1 - 1e-4, 1e-4, 0, 0], rel=1e-12)


@settings(max_examples=200, deadline=None)
@given(st.integers(0, 10**7) | st.floats(0.01, 1), st.floats(0.01, 1e7))
def test_residuals_are_those_of_the_likelihood(count: float, expected: float) -> None:
    """Also of a part of a count, as where something was taken off."""
    twice = 2 * (expected - count + (count * np.log(count / expected) if count else 0))
    ours = float(_fitting.deviance(np.array([float(count)]), np.array([expected]))[0])
    assert ours**2 == pytest.approx(twice, rel=1e-6, abs=1e-7 * max(count, 1)) and ours * (count - expected) >= 0


def test_mean_arrivals_of_pixels(make_file: Callable[..., Path]) -> None:
    events = [(0, made.Bits(1)), (1, 0, 0), (2, 0, 9), (12, 0, 20), (13, 0, 25), (14, 0, 26), (100, 0, 3)]
    found = cube(make_file("HydraHarp2T3", events), Scan(2, 1, 1, time=20), 5, 6)
    means = phasors.mean_delays(found.counts, found.ticks, offset=2.5)
    assert means.tolist() == [[2.5, (22.5 + 27.5 + 27.5) / 3 - 2.5]]
    assert np.isnan(phasors.mean_delays(found.counts, found.ticks, threshold=3)).tolist() == [[True, False]]
    assert phasors.mean_delays(found.counts[0, 1], found.ticks) == pytest.approx((22.5 + 55) / 3)


def test_phasors_of_single_decays_are_on_the_half_circle() -> None:
    counts, pulse = decayed(6, [3.0], [1.0], 400_000)
    axis, frequency = np.arange(BINS) * WIDTH, 1 / PERIOD
    found = phasors.phasor(counts, axis, frequency, reference=complex(phasors.phasor(pulse, axis, frequency)))
    assert abs(found - phasors.phasor_of_lifetime(3.0, frequency)) < 0.005
    assert [float(one) for one in phasors.lifetimes_of_phasor(found, frequency)] == pytest.approx([3.0, 3.0], rel=0.02)
    circle = phasors.phasor_of_lifetime(np.array([0.5, 2.0, 9.0]), frequency)
    assert np.allclose(np.abs(circle - 0.5), 0.5)
    few = phasors.phasor(np.stack([counts, counts * 0]), axis, frequency, threshold=10)
    assert np.isnan(few).tolist() == [False, True]


DELAYS = np.logspace(-6, 0, 120)


@pytest.mark.parametrize("dimensions, triplet", [(2, False), (3, False), (3, True), (2, True)])
def test_a_correlation_of_diffusion_is_fitted(dimensions: Literal[2, 3], triplet: bool) -> None:
    known = {"number": 2.5, "diffusion": 4e-4} | ({"triplet": 0.25, "triplet_time": 4e-6} if triplet else {})
    exact = fits.fcs_model(DELAYS, structure=5.0 if dimensions == 3 else None, **known)
    errors = 0.004 * (1 + 2 * np.exp(-DELAYS / 1e-5))
    noisy = exact + np.random.default_rng(7).normal(0, errors)
    noisy[5], errors[6] = np.nan, 0
    fit = fits.fit_fcs(DELAYS, noisy, errors, dimensions=dimensions, triplet=triplet, span=(0, 0.5))
    assert all(within(fit, name, value) for name, value in known.items())
    assert 0.7 < fit.reduced < 1.4 and len(fit.axis) < 119
    alike = fits.fit_fcs(DELAYS, noisy, dimensions=dimensions, triplet=triplet)
    assert alike.values["number"] == pytest.approx(2.5, rel=0.05) and alike.errors["number"] < 0.2
    doubled = fits.fit_fcs(DELAYS, noisy, 2 * errors, dimensions=dimensions, triplet=triplet, span=(0, 0.5))
    assert doubled.errors["number"] == pytest.approx(2 * fit.errors["number"], rel=0.02)


def test_models_are_those_of_the_formulas() -> None:
    assert fits.fcs_model(np.array([0.0]), 4, 1.0)[0] == 1.25
    assert fits.fcs_model(np.array([2.0]), 1, 2.0)[0] == pytest.approx(1.5)
    assert fits.fcs_model(np.array([2.0]), 1, 2.0, structure=1.0)[0] == pytest.approx(1 + 0.5 / np.sqrt(2))
    assert fits.fcs_model(np.array([2.0]), 1, 2.0, structure=3.0)[0] == pytest.approx(1 + 0.5 / np.sqrt(1 + 1 / 9))
    assert fits.fcs_model(np.array([0.0]), 1, 2.0, triplet=0.5)[0] == pytest.approx(3)
    assert fits.fcs_model(np.array([3.0]), 1, 1e9, triplet=0.5, triplet_time=3.0)[0] == pytest.approx(2 + np.exp(-1))


def report_of_pairs(program: str, tmp_path: Path, make_file: Callable[..., Path]) -> Any:
    draws = np.random.default_rng(8)
    events = sorted((int(time), int(number)) for time, number in zip(draws.integers(0, 200_000, 20_000), draws.integers(1, 3, 20_000)))
    path = make_file("HydraHarp2T2", events, tick=1e-9)
    plan = tmp_path / "plan.toml"
    plan.write_text(
        "group = [{ inputs = [1] }, { inputs = [2] }]\n"
        "trace = [{ group = 1, width = 9999999, bins = 1 }, { group = 2, width = 9999999, bins = 1 }]\n"
        "coincidence = [{ first = 1, second = 2, reach = 52, width = 10 }]\n"
        "correlation = [{ first = 1, second = 2, lags = 8, levels = 2 }]\nstartstop = [{ start = 1, stop = 2, width = 1, bins = 2 }]\n"
    )
    return ptulab.run(plan, path, program=program), path


def test_g2_of_reports_and_of_events(program: str, tmp_path: Path, make_file: Callable[..., Path]) -> None:
    report, path = report_of_pairs(program, tmp_path, make_file)
    values, bars = antibunching.g2(report.table("coincidence"))
    assert (np.abs(values - 1) < 4.5 * bars).all() and (0.01 < bars).all() and (bars < 0.2).all()
    ours, same = antibunching.g2(coincidences(path, 1, 2, 52, width=10))
    assert np.allclose(ours, values, rtol=1e-12) and np.allclose(same, bars, rtol=1e-12)
    table = report.table("coincidence")
    assert np.allclose(antibunching.g2(table, 2 * table.photons[0], table.photons[1])[0], values / 2)
    assert np.allclose(antibunching.g2(report.table("correlation"))[0], report.table("correlation").normalised())
    assert np.allclose(antibunching.g2((report + report).table("coincidence"))[0], values)


CELLS: dict[str, Any] = {"reach": 700, "width": 301}  # five cells, the third around 0, the last of 197 differences


def uncorrelated(seed: int, ticks: int, rate: float) -> Any:
    """Events of two inputs, each with a photon in a tick with this probability, between markers in the first and the last tick."""
    there = np.random.default_rng(seed).random(2 * ticks) < rate
    there[[0, -1]] = True
    events = np.zeros(int(there.sum()), ptulab.EVENT)
    events["time"], events["number"] = np.flatnonzero(there) // 2, np.flatnonzero(there) % 2 + 1
    events["marker"][[0, -1]] = True
    return events


@pytest.mark.parametrize(("first", "second"), [(1, 2), (1, 1), ((1, 2), (1, 2)), ((1, 2), 2)])
def test_bars_of_wide_cells_are_as_their_scatter(first: Any, second: Any) -> None:
    """Over many measurements the mean of g2 is 1 in each cell, and its scatter is the bar that is told."""
    found = [antibunching.g2(coincidences(uncorrelated(seed, 40_000, 0.003), first, second, **CELLS)) for seed in range(150)]
    values, bars = (np.array(column) for column in zip(*found))
    assert np.abs(values.mean(axis=0) - 1).max() < 0.02
    assert (values.std(axis=0) / np.sqrt((bars**2).mean(axis=0))) == pytest.approx(np.ones(5), abs=0.22)


def test_pairs_that_are_expected_are_those_of_all_places() -> None:
    """Photons in each tick have all pairs that there are places for, also behind the length of the measurement."""
    full = uncorrelated(0, 4000, 1.1)
    full["marker"] = False
    pairs = coincidences(full, 1, 2, 4300, width=301)
    assert pairs.length == pairs.first_photons == 4000 and pairs.counts.sum() == 4000**2 and (pairs.counts == 0).any()
    assert pairs.expected() == pytest.approx(pairs.counts.astype(float), rel=1e-12, abs=1e-6)


@pytest.mark.parametrize("group", [1, 2])
def test_bars_of_levels_are_as_their_scatter(group: Any) -> None:
    """The same of a correlation, whose levels have wide bins."""
    found = []
    for seed in range(150):
        events = uncorrelated(seed, 4000, 0.03)[1:-1]
        first, second = events["number"] == 1, events["number"] == group
        table = empty_table("correlation", 1, {"lags": 8, "levels": 5}, None)
        table.counts = segments.correlation(events["time"], first, second, lags=8, levels=5).astype(np.int64)
        table.measurements = (Measurement(4000, (int(first.sum()), int(second.sum()))),)
        found.append(antibunching.g2(table))
    values, bars = (np.array(column) for column in zip(*found))
    scatter = values.std(axis=0) / np.sqrt((bars**2).mean(axis=0))
    assert scatter.mean() == pytest.approx(1, abs=0.07) and np.abs(scatter - 1).max() < 0.25


def test_g2_of_what_has_none(program: str, tmp_path: Path, make_file: Callable[..., Path]) -> None:
    report, path = report_of_pairs(program, tmp_path, make_file)
    bare = ptulab.run(tmp_path / "plan.toml", path, program=program)
    table = bare.table("coincidence")
    table.measurements = tuple(one._replace(photons=None) for one in table.measurements)
    for none in (table, report.table("startstop")):
        with pytest.raises(ptulab.NotKnownError):
            antibunching.g2(none)
    with np.errstate(all="raise"):
        empty = antibunching.g2(coincidences(path, 3, 4, 2))
    assert np.isnan(empty).all()


def test_lmfit_is_named_where_it_is_missing(monkeypatch: pytest.MonkeyPatch) -> None:
    monkeypatch.setitem(cast(dict[str, Any], sys.modules), "lmfit", None)
    with pytest.raises(ptulab.MissingLibraryError, match="python3-lmfit"):
        fits.fit_tail(np.arange(10, 0, -1), np.arange(10.0), 0)


def test_fits_that_find_no_end_say_so(monkeypatch: pytest.MonkeyPatch) -> None:
    def failing(*words: Any, **more: Any) -> Any:
        raise ValueError("nan values")

    endless = types.SimpleNamespace(success=False, message="too many calls")
    for minimize, said in ((lambda *words, **more: endless, "too many calls"), (failing, "nan values")):
        monkeypatch.setattr(lmfit, "minimize", minimize)
        with pytest.raises(ptulab.FitError, match=said):
            fits.fit_tail(np.arange(10, 0, -1), np.arange(10.0), 0)


def test_fits_that_cannot_be() -> None:
    axis = np.arange(10.0)
    dimensions: Any = 1
    bad: list[Callable[[], object]] = [
        lambda: fits.fit_tail(np.zeros(10), axis, 0),
        lambda: fits.fit_tail(np.ones(10), axis, 9),
        lambda: fits.fit_tail(np.ones(10), axis, 0, terms=5),
        lambda: fits.fit_tail(np.ones(9), axis, 0),
        lambda: fits.fit_tail(np.ones((10, 10)), axis, 0),
        lambda: fits.fit_tail(axis - 1, axis, 0),
        lambda: fits.fit_reconvolution(axis - 1, np.ones(10), 1.0),
        lambda: fits.fit_reconvolution(np.ones(4), np.zeros(4), 1.0),
        lambda: fits.fit_reconvolution(np.ones(4), np.ones(5), 1.0),
        lambda: fits.fit_reconvolution(np.ones(4), np.ones(4), 1.0, period=3.0),
        lambda: fits.fit_fcs(axis, axis, dimensions=dimensions),
    ]
    for call in bad:
        with pytest.raises(ValueError):
            call()
    few: list[Callable[[], object]] = [lambda: fits.fit_fcs(axis, axis * np.nan), lambda: fits.fit_tail(np.ones(10), axis, 7, terms=3)]
    for call in few:
        with pytest.raises(ptulab.FitError):
            call()


# Told errors beside the scatter of measurements, which 40 to 60 fits tell to 2.5 % beside estimates that are straight in the same data
# (by drawing from them again), so that by chance one in 10,000 such tests would fail.


def of_period(lifetime: float, width: float, period: float, photons: float, background: float = 0.0) -> Any:
    """What bins of a decay expect whose pulse comes at 0, in a period that they cover."""
    edges = np.minimum(np.arange(np.ceil(period / width) + 1) * width, period)
    decay = -np.diff(np.exp(-edges / lifetime)) / -np.expm1(-period / lifetime)
    return photons * decay + background * np.diff(edges) / width


def tell_their_scatter(found: Any, known: dict[str, float], variances: Any = None, few: float = 0.0, away: Any = None) -> None:
    """Errors are as the scatter, within a tenth, and means as the truth within four of their errors, and ``few`` of the scatter."""
    assert told_over_scatter(found, known, variances, away) == pytest.approx(dict.fromkeys(known, 1.0), abs=0.1)
    for name, value in known.items():
        values = np.array([fit.values[name] for fit in found])
        assert values.mean() == pytest.approx(value, abs=(4 / np.sqrt(len(found)) + few) * values.std())


def beside(background: float) -> dict[str, float]:
    """A background that is a parameter: one of 0 is on its bound in half of the fits, and in the mean more than 0."""
    return {"background": background} if background else {}


@pytest.mark.parametrize(("photons", "background"), [(1000, 0.0), (1000, 0.5), (50_000, 2.0)])
def test_told_errors_of_tails_are_their_scatter(photons: int, background: float) -> None:
    draws, axis = np.random.default_rng(photons), np.arange(125) * 0.2
    curve = of_period(2.6, 0.2, 25.0, photons, background)
    found = [fits.fit_tail(draws.poisson(curve), axis, 0.0) for _ in range(60)]
    tell_their_scatter(found, {"lifetime_1": 2.6, "amplitude_1": curve[0] - background} | beside(background), few=0.0 if background else 0.3)
    assert np.mean([fit.reduced for fit in found]) == pytest.approx(1, abs=0.05)


@pytest.mark.parametrize("background", [0.0, 1.0])
def test_told_errors_of_reconvolutions_are_their_scatter(background: float) -> None:
    """Of photons one by one in a period of 62.5 bins, with a pulse in finer bins and a cable that is 0.15 longer."""
    draws, edges, period = np.random.default_rng(17), np.arange(64) * 0.4, 25.0
    pulse = np.histogram(draws.normal(2.0, 0.25, 1_000_000), np.linspace(0, 25.2, 63 * 4 + 1))[0]
    found = []
    for many in draws.poisson(4000, 60):
        delays = (draws.normal(2.15, 0.25, many) + draws.exponential(2.6, many)) % period
        noise = draws.uniform(0, period, draws.poisson(background * period / 0.4))
        found.append(fits.fit_reconvolution(np.histogram(np.append(delays, noise), edges)[0], pulse, 0.4, period=period))
    tell_their_scatter(found, {"amplitude_1": 4000.0, "lifetime_1": 2.6, "shift": 0.15} | beside(background), few=0.0 if background else 0.3)
    assert np.mean([fit.reduced for fit in found]) == pytest.approx(1, abs=0.1)


@pytest.mark.parametrize("photons", [20_000, 200_000])
def test_told_errors_of_tails_of_two_terms_are_their_scatter(photons: int) -> None:
    """Each of 40 fits finds the best lifetimes by itself."""
    draws, axis = np.random.default_rng(photons), np.arange(125) * 0.2
    known = {"amplitude_1": photons / 6, "lifetime_1": 0.6, "amplitude_2": photons / 40, "lifetime_2": 4.0, "background": 5.0}
    exact = 5 + sum(known[f"amplitude_{n}"] * np.exp(-axis / known[f"lifetime_{n}"]) for n in (1, 2))
    tell_their_scatter([fits.fit_tail(draws.poisson(exact), axis, 0.0, terms=2) for _ in range(40)], known)


TWO = {"amplitude_1": 3e4, "lifetime_1": 0.6, "amplitude_2": 3e4, "lifetime_2": 4.0, "background": 10.0, "shift": 0.15}
SCATTERED = {"amplitude_1": 1.8e4, "lifetime_1": 2.6, "background": 10.0, "shift": 0.15, "scatter": 2e3}


def counted_over(draws: Any, light: Any, dark: Any, longer: float, many: int) -> Any:
    """So many measurements of light over a background, and of the background, which was measured so many times longer; how far each point
    is from what is expected, and the variances of this."""
    counts, measured = draws.poisson(light + dark, (many, len(light))), draws.poisson(longer * dark, (many, len(light)))
    return counts, measured, counts - light - measured / longer, light + dark + dark / longer


@pytest.mark.parametrize(("known", "longer"), [(TWO, 3), (TWO, 1), (SCATTERED, 0.3), (SCATTERED, 20)])
def test_told_errors_over_a_measured_background_are_their_scatter(known: dict[str, float], longer: float) -> None:
    """Of two terms, and of one with scattered light; the background rises like a ramp and was measured so many times longer."""
    draws, ramp = np.random.default_rng(20), np.linspace(1, 5, 63) / 3
    pulse = np.histogram(draws.normal(2.0, 0.25, 1_000_000), 63 * 4, (0, 25.2))[0]
    shape, terms = fits.Convolved(pulse.astype(float), 4, 0.4, PERIOD), 1 + ("lifetime_2" in known)
    parts = [known[f"amplitude_{n}"] * shape.decay(known[f"lifetime_{n}"], 0.15) for n in range(1, terms + 1)]
    light = sum(parts) + known.get("scatter", 0) * shape.decay(1e-4, 0.15)
    counts, measured, away, variances = counted_over(draws, light, 10 * ramp, longer, 40)
    more: Any = {"period": PERIOD, "terms": terms, "scatter": "scatter" in known}
    found = [fits.fit_reconvolution(one, pulse, 0.4, background=other, **more) for one, other in zip(counts, measured)]
    tell_their_scatter(found, known, variances, away=away)
    assert np.mean([fit.reduced for fit in found]) == pytest.approx(1, abs=0.1)


@pytest.mark.parametrize(("longer", "dark"), [(0.1, 10.0), (0.25, 100.0), (0.3, 3.0), (1, 1.0), (3, 10.0)])
def test_told_errors_of_tails_over_a_measured_background_are_their_scatter(longer: float, dark: float) -> None:
    """Of so many counts a bin in the mean, also where only one was measured, which rise like a ramp."""
    draws, axis, ramp = np.random.default_rng(21), np.arange(200) * 0.1, np.linspace(1, 3, 200) / 2
    counts, measured, away, variances = counted_over(draws, 50 * dark * np.exp(-axis / 2.5), dark * ramp, longer, 60)
    found = [fits.fit_tail(one, axis, 0.0, background=other) for one, other in zip(counts, measured)]
    tell_their_scatter(found, {"lifetime_1": 2.5, "amplitude_1": 50 * dark, "background": dark}, variances, away=away)
    assert np.mean([fit.reduced for fit in found]) == pytest.approx(1, abs=0.05)
    assert found[0].lmfit.chisqr == pytest.approx((found[0].residuals ** 2).sum())


def test_fits_together_over_measured_backgrounds() -> None:
    """With a lifetime that is the mean of both by their errors; what each has alone is told as well as before, or better."""
    draws, axis, both = np.random.default_rng(22), np.arange(100) * 0.2, []
    for height, dark, longer in ((400, 8.0, 0.25), (150, 4.0, 1.0)):
        counts, measured, _, _ = counted_over(draws, height * np.exp(-axis / 2.5), np.full(100, dark), longer, 1)
        both.append(fits.fit_tail(counts[0], axis, 0.0, background=measured[0]))
    times, errors = np.array([(fit.values["lifetime_1"], fit.errors["lifetime_1"]) for fit in both]).T
    found, error = fits.fit_together(both, ["lifetime_1"]), 1 / np.sqrt((errors**-2).sum())
    for fit, alone in zip(found, both):
        assert fit.values["lifetime_1"] == pytest.approx((times / errors**2).sum() * error**2, abs=0.3 * error)
        assert fit.errors["lifetime_1"] == pytest.approx(error, rel=0.05)
        assert 0.8 * alone.errors["background"] < fit.errors["background"] < 1.02 * alone.errors["background"]


def test_a_background_of_too_few_counts_is_refused() -> None:
    """Where it matters: one that was measured long enough beside the sample may have few counts."""
    draws, axis, decay = np.random.default_rng(8), np.arange(200) * 0.1, np.exp(-np.arange(200) * 0.1 / 2.5)
    with pytest.raises(ptulab.FitError, match=r"background of \S+ counts a bin .* measure it longer, .* wider bins"):
        fits.fit_tail(draws.poisson(10 + 500 * decay), axis, 0.0, background=draws.poisson(0.3, 200))
    fit = fits.fit_tail(draws.poisson(0.1 + 500 * decay), axis, 0.0, background=draws.poisson(1.0, 200))
    assert within(fit, "lifetime_1", 2.5) and fit.errors["lifetime_1"] < 0.04


def test_a_flat_background_of_any_height_is_exact() -> None:
    """Nobody counts the same in each bin: the errors are those without a measured one. So is one that was scaled."""
    draws, axis, decay = np.random.default_rng(9), np.arange(200) * 0.1, np.exp(-np.arange(200) * 0.1 / 2.5)
    counts, measured = draws.poisson(10 + 500 * decay), draws.poisson(10, 200)
    plain = fits.fit_tail(counts, axis, 0.5)
    for flat in (np.ones(200), np.full(200, 7), np.full(200, 1.5), np.where(axis < 0.5, 0, 1)):
        fit = fits.fit_tail(counts, axis, 0.5, background=flat)
        assert [fit.values["lifetime_1"], fit.errors["lifetime_1"], fit.reduced] == pytest.approx(
            [plain.values["lifetime_1"], plain.errors["lifetime_1"], plain.reduced], rel=1e-3
        )
    exact, counted = (fits.fit_tail(counts, axis, 0.5, background=one) for one in (measured / 3, measured))
    assert exact.errors["lifetime_1"] < 0.95 * counted.errors["lifetime_1"]


def test_a_background_without_counts_where_bins_are_fitted_is_refused() -> None:
    axis, counts = np.arange(60) * 0.4, np.random.default_rng(4).poisson(5 + 500 * np.exp(-np.arange(60) / 6))
    for background in (np.where(axis < 2, 9, 0), np.zeros(60)):
        with pytest.raises(ValueError, match="background without counts in the bins"):
            fits.fit_tail(counts, axis, 2.0, background=background)
        with pytest.raises(ValueError, match="background without counts in the bins"):
            fits.fit_reconvolution(counts, np.arange(60) == 2, 0.4, background=background, span=(2.0, 20.0))


def test_the_most_likely_level_of_a_background() -> None:
    """No other is likelier, also of 0 counts of either, and without a signal."""
    some = np.array([(n, s, m) for n in (0.0, 1.0, 40.0) for s in (0.0, 0.7, 30.0) for m in (0.0, 2.0, 25.0)]).T
    for height in (0.05, 1.0, 8.0):
        best = _fitting.best_level(some[0], some[1], height, some[2])
        least, others = (
            _fitting.deviance(some[0], some[1] + height * level) ** 2 + _fitting.deviance(some[2], level) ** 2
            for level in (best, np.linspace(0, 60, 6001)[:, None])
        )
        assert np.all(best >= 0) and np.all(least <= others.min(axis=0) + 1e-9)


@pytest.mark.parametrize("told", [True, False])
def test_told_errors_of_correlations_are_their_scatter(told: bool) -> None:
    draws, known = np.random.default_rng(9), {"number": 2.5, "diffusion": 4e-4, "baseline": 1.0}
    exact = fits.fcs_model(DELAYS[::2], structure=5.0, **known)
    errors = 0.004 * (1 + 2 * np.exp(-DELAYS[::2] / 1e-5)) if told else np.full(60, 0.004)
    found = [fits.fit_fcs(DELAYS[::2], draws.normal(exact, errors), errors if told else None) for _ in range(60)]
    tell_their_scatter(found, known, errors**2)


@pytest.mark.parametrize("together", [0.0, 0.05])
def test_told_errors_by_ten_segments_are_their_scatter(together: float) -> None:
    """300 measurements of ten segments, with pairs by Poisson's law, and a height that may be another in each segment."""
    ticks, level = segments.delays(8, 14)
    times, draws, pairs, found = ticks * 1e-6, np.random.default_rng(4), 400.0 * 2.0**level, []
    for _ in range(300):
        heights = 1 + together * draws.normal(size=(10, 1))
        expected = pairs * (1 + heights * (fits.fcs_model(times, 2.5, 4e-4) - 1))
        parts = draws.poisson(expected) / pairs
        found.append(fits.fit_fcs(times, parts.mean(axis=0), segments=parts, dimensions=2))
    for name, known in (("number", 2.5), ("diffusion", 4e-4), ("baseline", 1.0)):
        values, said = (np.array([getattr(fit, what)[name] for fit in found]) for what in ("values", "errors"))
        assert np.sqrt((said**2).mean()) == pytest.approx(values.std(), rel=0.1)
        assert values.mean() == pytest.approx(known, abs=4 * values.std() / np.sqrt(300))
    assert together or np.mean([fit.reduced for fit in found]) == pytest.approx(1, abs=0.1)


@pytest.mark.parametrize(
    ("known", "more"),
    [
        ({"diffusion": 4e-4, "part_2": 0.4, "diffusion_2": 8e-3}, {"species": 2}),
        ({"diffusion": 4e-4, "anomaly": 0.8}, {"start": {"anomaly": 1.0}}),
        ({"diffusion": 4e-3, "flow_rate": 400.0}, {"start": {"flow_rate": 200.0}}),
    ],
)
def test_told_errors_by_segments_beyond_one_species_are_their_scatter(known: dict[str, float], more: Any) -> None:
    known = {"number": 2.5, "baseline": 1.0, **known}
    times, draws = segments.delays(8, 14)[0] * 1e-6, np.random.default_rng(4)
    exact, spread, found = fits.fcs_model(times, **known), 0.0005 * (1 + 2 * np.exp(-times / 1e-5)), []
    for _ in range(60):
        parts = draws.normal(exact, spread * np.sqrt(10), (10, len(times)))
        found.append(fits.fit_fcs(times, parts.mean(axis=0), segments=parts, dimensions=2, **more))
    tell_their_scatter(found, known, spread**2)


def test_segments_without_a_value_are_left_out_of_a_fit() -> None:
    times, draws = DELAYS[::2], np.random.default_rng(6)
    parts = draws.normal(fits.fcs_model(times, 2.5, 4e-4), 0.004, (8, 60))
    parts[2, 5] = np.nan
    known = fits.fit_fcs(times, parts.mean(axis=0), segments=parts, dimensions=2)
    assert len(known.axis) == 59 and times[5] not in known.axis and 0 < known.errors["number"] < 0.01
    with_none = np.insert(parts, 4, np.nan, axis=0)
    assert fits.fit_fcs(times, parts.mean(axis=0), segments=with_none, dimensions=2).errors == known.errors
    for bad, errors in ((parts, np.ones(60)), (parts[:2], None), (with_none[3:6], None)):
        with pytest.raises(ValueError, match="segments"):
            fits.fit_fcs(times, parts[0], errors, segments=bad)


def test_every_background_free_decay_has_an_error_of_its_lifetime() -> None:
    """Also where the background ends on its bound, which half of these do; that has none then."""
    draws, axis = np.random.default_rng(2), np.arange(125) * 0.2
    found = [fits.fit_tail(draws.poisson(of_period(2.6, 0.2, 25.0, 500)), axis, 0.0) for _ in range(60)]
    errors = np.array([[fit.errors["lifetime_1"], fit.errors["background"]] for fit in found])
    assert ((0.08 < errors[:, 0]) & (errors[:, 0] < 0.2)).all() and 15 < np.isnan(errors[:, 1]).sum() < 45


@settings(max_examples=100, deadline=None)
@given(st.floats(-3, 4))
def test_deviances_are_those_of_poissons_law(power: float) -> None:
    """By the logarithms of SciPy's chances: of each count, and in the mean."""
    expected = 10.0**power
    counts = np.arange(0, int(expected + 12 * np.sqrt(expected)) + 20)
    twice = 2 * (stats.poisson.logpmf(counts, np.maximum(counts, 1e-300)) - stats.poisson.logpmf(counts, expected))
    ours = _fitting.deviance(counts.astype(float), np.full(len(counts), expected))
    assert ours**2 == pytest.approx(twice, rel=1e-5, abs=1e-8 * max(expected, 1))
    mean = float((twice * stats.poisson.pmf(counts, expected)).sum())
    assert _fitting.mean_deviance(np.array([expected]))[0] == pytest.approx(mean, rel=3e-5)


@pytest.mark.parametrize("rate", [0.05, 0.5, 3.0])
def test_a_right_model_has_a_reduced_deviance_of_1_also_at_few_counts(rate: float) -> None:
    draws, axis = np.random.default_rng(3), np.arange(400) * 0.1
    decay = rate * 40 / 8 * np.exp(-axis / 8.0)
    reduced = [fits.fit_tail(draws.poisson(decay), axis, 0.0).reduced for _ in range(60)]
    assert np.mean(reduced) == pytest.approx(1, abs=0.04)


# Pulses, bins and periods.


@pytest.mark.parametrize(("period", "pulse_at"), [(1562.5, 130.0), (1562.3, 130.0), (1562.5, 1500.0)])
def test_a_period_of_no_whole_number_of_bins(period: float, pulse_at: float) -> None:
    """As a plan for such a file has it: 1563 bins of a tick, the last of which is cut; 64 ps ticks of a 100 ns period."""
    draws = np.random.default_rng(12)
    delays = (draws.normal(pulse_at, 8, 500_000) + draws.exponential(400.0, 500_000)) % period
    noise = draws.uniform(0, period, 150_000)
    counts = np.bincount(np.append(delays, noise).astype(int), minlength=1563)
    pulse = np.bincount((draws.normal(pulse_at, 8, 500_000) % period).astype(int), minlength=1563)
    fit = fits.fit_reconvolution(counts, pulse, 1.0, period=period)
    assert within(fit, "lifetime_1", 400.0) and fit.errors["lifetime_1"] < 2
    assert within(fit, "background", 150_000 / period) and within(fit, "amplitude_1", 500_000)
    assert fit.residuals[-1] ** 2 < 16 and 0.85 < fit.reduced < 1.15
    with pytest.raises(ValueError, match="leave out"):
        fits.fit_reconvolution(np.append(counts, 0), np.append(pulse, 0), 1.0, period=period)


@pytest.mark.parametrize(("width", "tolerance"), [(0.25, 0.005), (0.5, 0.006)])
def test_bins_wider_than_the_pulse_with_a_pulse_in_finer_ones(width: float, tolerance: float) -> None:
    draws, bins, finer = np.random.default_rng(1), round(PERIOD / width), round(width / 0.05)
    counts = np.histogram((draws.normal(2.07, 0.12, 500_000) + draws.exponential(1.0, 500_000)) % PERIOD, bins, (0, PERIOD))[0]
    pulse = np.histogram(draws.normal(2.0, 0.12, 1_000_000), bins * finer, (0, PERIOD))[0]
    fit = fits.fit_reconvolution(counts, pulse, width, period=PERIOD)
    assert fit.values["lifetime_1"] == pytest.approx(1.0, rel=tolerance) and fit.values["shift"] == pytest.approx(0.07, abs=0.005)
    assert fit.reduced < 2 and fit.axis.shape == fit.curve.shape == (bins,)
    coarse = fits.fit_reconvolution(counts, pulse.reshape(-1, finer).sum(axis=1), width, period=PERIOD)
    assert coarse.values["lifetime_1"] < 1 - tolerance and coarse.reduced > 10


def test_a_pulse_of_any_height_and_a_decay_of_one_photon() -> None:
    counts, pulse = decayed(3, [2.0], [1.0], 10_000)
    whole, part = (fits.fit_reconvolution(counts, one, WIDTH, period=PERIOD) for one in (pulse, pulse / pulse.sum() / 2))
    assert part.values == pytest.approx(whole.values, rel=1e-3, abs=1e-3)
    assert fits.fit_reconvolution(np.eye(1, BINS, 60)[0], pulse, WIDTH).curve.sum() == pytest.approx(1, rel=0.2)


def test_a_reconvolution_is_that_of_lmfits_own_models() -> None:
    """A Gaussian convolved with an exponential, as lmfit's lineshapes have it in closed form, also where it is shifted."""
    fine = np.arange(25_000) * 0.001 + 0.0005
    pulse = lineshapes.gaussian(fine, 1.0, 2.0, 0.12).reshape(-1, 10).sum(axis=1)
    shape = fits.Convolved(pulse, 5, 0.05, None)
    for lifetime, shift in ((0.3, 0.0), (2.6, 0.113), (9.0, -0.4)):
        known = lineshapes.expgaussian(fine, 1.0, 2.0 + shift, 0.12, 1 / lifetime).reshape(-1, 50).sum(axis=1) * 0.001
        assert shape.decay(lifetime, shift) == pytest.approx(known, abs=4e-5)


@settings(max_examples=60, deadline=None)
@given(st.floats(0.05, 50), st.floats(0.01, 2), st.floats(-30, 60))
def test_decays_anywhere_in_a_bin_are_integrals(lifetime: float, width: float, at: float) -> None:
    """Also of bins that begin before that of the excitation, or within it, and of many earlier pulses."""
    places = (np.arange(2000) + 0.5) / 2000 * width
    until = [np.where(edge > places, -np.expm1(-np.maximum(edge - places, 0) / lifetime), 0.0) for edge in (at, at + width)]
    assert float(fits.decay_of_bins(np.array([at]), lifetime, width)[0]) == pytest.approx((until[1] - until[0]).mean(), abs=1e-3)
    earlier = fits.decay_of_bins(at + 31.0 * np.arange(0, 1 + int(800 // 31) + int(40 * lifetime / 31)), lifetime, width).sum()
    assert float(fits.decay_of_bins(np.array([at]), lifetime, width, 31.0)[0]) == pytest.approx(earlier, rel=1e-9, abs=1e-12)


# Correlations with a triplet.


@pytest.mark.parametrize(("tick", "levels"), [(1e-12, 35), (4e-12, 33), (1e-9, 25)])
def test_a_triplet_is_found_whatever_the_first_cells_are(tick: float, levels: int) -> None:
    """20,000 counts a second for a minute: cells of few ticks have a pair now and then, or none."""
    ticks, level = segments.delays(16, levels)
    known = {"number": 2.5, "diffusion": 4e-4, "triplet": 0.25, "triplet_time": 4e-6}
    exact = fits.fcs_model(ticks * tick, structure=5.0, **known)
    pairs = 2e4**2 * 2.0**level * tick * 60 / 10
    for seed in range(20):
        parts = np.random.default_rng(seed).poisson(pairs * exact, (10, len(ticks))) / pairs
        fit = fits.fit_fcs(ticks * tick, parts.mean(axis=0), parts.std(axis=0, ddof=1) / np.sqrt(10), triplet=True)
        assert all(fit.values[name] == pytest.approx(value, rel=0.4) for name, value in known.items())
        assert all(abs(fit.values[name] - value) < 8 * fit.errors[name] for name, value in known.items())


@pytest.mark.parametrize("end", [6, 7, 8])
def test_fits_that_can_come_no_nearer_are_fits(end: int, monkeypatch: pytest.MonkeyPatch) -> None:
    """MINPACK's ends because numbers can't tell a nearer fit are none that failed."""
    whole = lmfit.minimize

    def as_near_as_can_be(*words: Any, **more: Any) -> Any:
        result = whole(*words, **more)
        result.success, result.ier = False, end
        return result

    monkeypatch.setattr(lmfit, "minimize", as_near_as_can_be)
    fit = fits.fit_fcs(DELAYS, fits.fcs_model(DELAYS, 2.5, 4e-4, structure=5.0))
    assert fit.values["diffusion"] == pytest.approx(4e-4, rel=1e-6)


@pytest.mark.parametrize("dark", [0.25, 0.93, 0.97])
def test_a_triplet_begins_beside_the_known_one_and_on_no_bound(dark: float) -> None:
    exact = fits.fcs_model(DELAYS, 2.5, 4e-4, structure=5.0, triplet=dark, triplet_time=4e-6)
    begin = fits._begin_fcs(DELAYS, exact, np.full(120, 0.01), 5.0, True)
    assert begin["triplet"].value == pytest.approx(np.clip(dark, 0.05, 0.9), abs=0.04)
    assert all(one.min < one.value < one.max for one in begin.values())
    assert dark > 0.95 or [begin[name].value for name in ("diffusion", "triplet_time")] == pytest.approx([4e-4, 4e-6], rel=0.5)


@pytest.mark.parametrize("lifetimes", [[2.0], [0.5, 4.0], [0.3, 1.5, 9.0]])
def test_the_terms_of_a_decay_begin_beside_the_known_ones(lifetimes: list[float]) -> None:
    axis = np.arange(250) * 0.1
    counts = 3 + sum(20_000 / len(lifetimes) * np.exp(-axis / one) for one in lifetimes)
    begin = fits.fit_tail(counts, axis, 0.0, terms=len(lifetimes)).problem.begin
    heights, times = ([begin[f"{name}_{n}"].value for n in range(1, len(lifetimes) + 1)] for name in ("amplitude", "lifetime"))
    assert sum(heights) == pytest.approx(20_000, rel=0.25) and np.log(times) == pytest.approx(np.log(lifetimes), abs=0.6)


def test_a_fit_is_shown_without_lmfits_result() -> None:
    assert "lmfit" not in repr(fits.fit_fcs(DELAYS, fits.fcs_model(DELAYS, 2.5, 4e-4, structure=5.0)))


def test_a_curve_has_six_points_and_those_at_the_ends_of_its_span() -> None:
    times = np.geomspace(1e-5, 1e-2, 8)
    curve = fits.fcs_model(times, 2.5, 4e-4, structure=5.0)
    fit = fits.fit_fcs(times, curve, span=(times[1], times[6]))
    assert fit.axis.tolist() == times[1:7].tolist() and fit.values["number"] == pytest.approx(2.5, rel=1e-4)
    with pytest.raises(ptulab.FitError, match="5 points"):
        fits.fit_fcs(times, curve, span=(times[2], times[6]))


def test_a_flat_curve_begins_with_a_million_molecules() -> None:
    flat = fits._begin_fcs(DELAYS, np.ones(120), np.full(120, 0.01), 5.0, False)
    assert flat["number"].value == pytest.approx(1e6)


def test_delays_of_nothing_are_left_out() -> None:
    fit = fits.fit_fcs(np.append(0.0, DELAYS), np.append(99.0, fits.fcs_model(DELAYS, 2.5, 4e-4, structure=5.0)))
    assert fit.values["number"] == pytest.approx(2.5, rel=1e-5) and len(fit.axis) == 120


# Phasors and mean delays.


@pytest.mark.parametrize("bins", [8, 16, 64, 500])
@pytest.mark.parametrize("at", [0, 3])
def test_phasors_of_bins_of_any_width_are_on_the_half_circle(bins: int, at: int) -> None:
    """A pulse at the beginning of a bin, told by its time: lifetimes come out, and mixtures lie between."""
    width, frequency = PERIOD / bins, 1 / PERIOD
    axis, lifetimes = np.arange(bins) * width, np.array([0.3, 1.0, 4.0, 11.0])
    counts = np.array([np.roll(of_period(lifetime, width, PERIOD, 1000.0), at) for lifetime in lifetimes])
    found = phasors.phasor(counts, axis, frequency, offset=at * width)
    assert np.abs(found - 0.5) == pytest.approx(np.full(4, 0.5), rel=1e-9)
    assert found == pytest.approx(phasors.phasor_of_lifetime(lifetimes, frequency, width), rel=1e-9)
    for ours in phasors.lifetimes_of_phasor(found, frequency, width):
        assert ours == pytest.approx(lifetimes, rel=1e-6)
    assert phasors.phasor(counts[:2].sum(axis=0), axis, frequency, offset=at * width) == pytest.approx(found[:2].mean(), rel=1e-9)


def test_phasors_by_a_pulse_or_a_known_dye() -> None:
    """Of photons with a pulse at 2 ns: without a reference they are turned by 29 degrees, out of the half circle."""
    axis, frequency, edges = np.arange(BINS) * WIDTH, 1 / PERIOD, np.arange(BINS + 1) * WIDTH
    draws = np.random.default_rng(5)
    dye, sample = (decayed(seed, [lifetime], [1.0], 400_000)[0] for seed, lifetime in ((1, 4.1), (2, 2.6)))
    pulse = np.histogram(draws.normal(2.0, 0.12, 400_000), edges)[0]
    turned = phasors.phasor(sample, axis, frequency)
    assert abs(turned - 0.5) > 0.55
    for reference in (phasors.phasor_reference(pulse, axis, frequency), phasors.phasor_reference(dye, axis, frequency, 4.1)):
        found = phasors.phasor(sample, axis, frequency, reference=reference)
        assert abs(found - phasors.phasor_of_lifetime(2.6, frequency)) < 0.005
    by_time = phasors.phasor(sample, axis, frequency, offset=2.0)
    assert abs(by_time - phasors.phasor_of_lifetime(2.6, frequency)) < 0.005
    assert phasors.phasor(sample, axis, frequency, offset=2.0) == pytest.approx(turned * np.exp(-2j * np.pi * frequency * 2.0))
    with pytest.raises(ValueError, match="without photons"):
        phasors.phasor_reference(pulse * 0, axis, frequency)
    one = phasors.phasor_reference(np.array([0, 1, 0, 0]), np.arange(4.0), 0.25)
    assert one == pytest.approx(np.exp(2j * np.pi * 1.5 / 4) * np.cos(np.pi / 4))


def test_lifetimes_that_no_phasor_has_are_nan() -> None:
    with np.errstate(invalid="raise"):
        phase, modulation = phasors.lifetimes_of_phasor(np.array([0.99 + 0.01j, 1.1 + 0.1j]), 0.04, 3.0)
    assert np.isnan(phase).all() and np.isnan(modulation).all()


def test_the_middle_of_one_bin_wants_its_width() -> None:
    with pytest.raises(ValueError, match="one bin"):
        phasors.mean_delays(np.array([[5]]), np.array([0.0]))
    with pytest.raises(ValueError, match="one bin"):
        phasors.phasor(np.array([[5]]), np.array([0.0]), 0.04)
    assert phasors.mean_delays(np.array([[5]]), np.array([10.0]), width=4.0, offset=1.0).tolist() == [11.0]


def test_means_of_pythons_own_numbers() -> None:
    assert phasors.mean_delays(np.array([[2**70, 2**70]], object), np.array([0.0, 0.4])).tolist() == pytest.approx([0.4])


# Sums.


def a_sum(program: str, tmp_path: Path, make_file: Callable[..., Path]) -> Any:
    """Two measurements of unlike lengths without correlation, one file without events, and their sum."""
    paths = []
    for seed, length, photons in ((1, 200_000, 10_000), (2, 600_000, 30_000), (3, 0, 0)):
        draws = np.random.default_rng(seed)
        times, inputs = np.sort(draws.integers(0, max(length, 1), 2 * photons)), draws.integers(1, 3, 2 * photons)
        events = [*zip(times.tolist(), inputs.tolist())]
        paths.append(make_file("HydraHarp2T2", events, name=f"{seed}.ptu", tick=1e-9))
    report_of_pairs(program, tmp_path, make_file)
    return [ptulab.run(tmp_path / "plan.toml", path, program=program) for path in paths], tmp_path / "plan.toml", paths


def written_again(tmp_path: Path, report: Any) -> Any:
    ptulab.write_report(report, tmp_path / "again.txt")
    return ptulab.read_report(tmp_path / "again.txt")


def test_a_file_without_events_leaves_a_sum_as_it_was(program: str, tmp_path: Path, make_file: Callable[..., Path]) -> None:
    (one, two, empty), plan, paths = a_sum(program, tmp_path, make_file)
    whole = ptulab.count_files(plan, [*paths[:1], paths[2], paths[1]], program=program).report
    assert whole is not None
    bare = ptulab.sum_reports([written_again(tmp_path, report) for report in (empty, one, two)])
    for kind in ("coincidence", "correlation"):
        known, bars = antibunching.g2((one + two).table(kind))
        assert np.array_equal(antibunching.g2(whole.table(kind))[0], known) and np.abs(known - 1).max() < 5 * bars.max()
        assert np.array_equal(antibunching.g2((empty + one + two).table(kind))[1], bars)
        each = [tuple(report.table(kind).photons[place] for report in (one, two)) for place in (0, 1)]
        assert antibunching.g2(bare.table(kind), *each)[0] == pytest.approx(known)
        assert np.isnan(antibunching.g2(empty.table(kind))[0]).all()
    assert np.array_equal(whole.table("correlation").normalised(), (one + two).table("correlation").normalised())


def test_given_photons_of_a_sum(program: str, tmp_path: Path, make_file: Callable[..., Path]) -> None:
    """One number is that of all measurements, shared by their lengths; one alone leaves the other to the plan."""
    (one, two, _), *_ = a_sum(program, tmp_path, make_file)
    for kind in ("coincidence", "correlation"):
        table = (one + two).table(kind)
        known = antibunching.g2(table)[0]
        assert antibunching.g2(table, *table.photons)[0] == pytest.approx(known, rel=0.02)
        assert antibunching.g2(table, 2 * table.photons[0])[0] == pytest.approx(known / 2, rel=0.02)
        assert antibunching.g2(table, None, 4 * table.photons[1])[0] == pytest.approx(known / 4, rel=0.02)
        with pytest.raises(ValueError, match="3 measurements for 2"):
            antibunching.g2(table, [1, 2, 3], [1, 2, 3])
        with pytest.raises(ptulab.NotKnownError, match="written as one report"):
            antibunching.g2(written_again(tmp_path, one + two).table(kind), *table.photons)


def test_a_cube_is_not_copied_to_floating_point() -> None:
    """Mean delays and phasors of a cube of 16 MiB take a fraction of that."""
    counts = np.random.default_rng(3).poisson(2.0, (64, 64, 512))
    axis = np.arange(512.0)
    tracemalloc.start()
    try:
        means, points = phasors.mean_delays(counts, axis), phasors.phasor(counts, axis, 1 / 512)
        most = tracemalloc.get_traced_memory()[1]
    finally:
        tracemalloc.stop()
    assert most < 4 << 20
    assert means == pytest.approx(np.average(np.broadcast_to(axis + 0.5, counts.shape), axis=-1, weights=counts))
    turns = np.exp(2j * np.pi * (axis + 0.5) / 512) * np.cos(np.pi / 512)
    assert points == pytest.approx(counts @ turns / counts.sum(axis=-1))
