"""Correlations beyond a curve, against known light: a source that switches on and off, background, afterpulses, species."""

from pathlib import Path
from types import SimpleNamespace
from typing import Any

import numpy as np
import pytest
import simulated

import ptulab
from ptulab import fcs, fits
from ptulab.groups import Group
from ptulab.segments import Curve, correlation_by_segments, delays

PERIOD = 50e-9  # seconds of a sync period
LASTS = 500e-6  # in which the correlation of the source that switches on and off falls by a factor of e


def on_and_off(draws: Any, rate: float, seconds: float) -> Any:
    """Times of photons, in seconds, of light that is on for half of the time, at random: G = 1 + exp(-t / LASTS)."""
    turns = np.cumsum(draws.exponential(2 * LASTS, round(seconds / LASTS)))
    times = draws.uniform(0, seconds, draws.poisson(2 * rate * seconds))
    return times[np.searchsorted(turns, times) % 2 == 0]


def level(draws: Any, rate: float, seconds: float) -> Any:
    return draws.uniform(0, seconds, draws.poisson(rate * seconds))


def events_of(parts: Any) -> Any:
    """Events of T3 with ticks of 100 ps, of times in seconds, dtimes in ticks and an input for each part."""
    times, dtimes, numbers = (np.concatenate(column) for column in zip(*parts))
    order = np.argsort(times, kind="stable")
    events = np.zeros(len(times), ptulab.EVENT)
    events["time"], events["dtime"], events["number"] = (times[order] / PERIOD).astype(np.int64), dtimes[order], numbers[order]
    return events


def part(draws: Any, times: Any, lifetime: float | None, number: int = 1) -> Any:
    late = draws.uniform(0, 500, len(times)) if lifetime is None else (draws.exponential(lifetime * 10, len(times)) + 20) % 500
    return times, late.astype(np.int32), np.full(len(times), number)


def height(curve: Curve) -> tuple[float, float]:
    """The amplitude of exp(-t / LASTS) in a curve, with its error by the segments."""
    times = curve.ticks * PERIOD
    kept = (times > 2e-6) & (times < 0.02)
    fit = fits.fit_model(
        lambda axis, height, base: np.asarray(base + height * np.exp(-axis / LASTS)),
        times[kept],
        curve.values[kept],
        {"height": 0.5, "base": 1.0},
        segments=curve.segments[:, kept],
    )
    return fit.values["height"], fit.errors["height"]


def test_diffusion_is_found_by_the_photons_of_molecules(tmp_path: Path, program: str) -> None:
    """20 molecules go through a focus step by step, in ten files of 16,000 diffusion times, which the program correlates."""
    plan, curves = ptulab.Plan().group("one", 1).group("two", 2).correlation("one", "two", until=8 * simulated.DIFFUSION), []
    for seed in range(10):
        table = ptulab.run(plan, simulated.diffusion(tmp_path / "plane.ptu", seed, step=simulated.DIFFUSION / 10), program=program).table("correlation")
        curves.append(table.normalised())
    fit = fits.fit_fcs(np.asarray(table.seconds), np.mean(curves, axis=0), segments=np.array(curves), dimensions=2, span=(1e-4, 8 * simulated.DIFFUSION))
    for name, known in {"number": simulated.NUMBER, "diffusion": simulated.DIFFUSION, "baseline": 1 - 1 / 20}.items():
        assert fit.values[name] == pytest.approx(known, rel=0.03) and abs(fit.values[name] - known) < 4 * fit.errors[name]


def test_background_makes_amplitudes_too_small_and_is_taken_off() -> None:
    """10 seconds at 30 kHz, a third of which is background in one detector and a fifth in the other."""
    draws, seconds = np.random.default_rng(1), 10.0
    light = on_and_off(draws, 20_000 + 24_000, seconds)
    first = draws.random(len(light)) < 20 / 44
    dark = [level(draws, rate, seconds) for rate in (10_000, 6_000)]
    parts = [(light[first], 1), (light[~first], 2), (dark[0], 1), (dark[1], 2)]
    events = events_of([part(draws, times, 2.0, number) for times, number in parts])
    curve = correlation_by_segments(events, 1, 2, segments=10)
    signal = fcs.signal_of(curve, 10_000 * PERIOD, 6_000 * PERIOD)
    assert signal == pytest.approx(np.sqrt(2 / 3 * 0.8), rel=0.01)
    raw, _ = height(curve)
    found, error = height(fcs.curve_without_background(curve, signal))
    assert raw == pytest.approx(signal**2, rel=0.05) and found == pytest.approx(1, rel=0.03 + 4 * error) and error < 0.03
    assert fcs.signal_of(curve, 10_000 * PERIOD) == pytest.approx(np.sqrt(2 / 3 * (1 - 1 / 3)), rel=0.01)


def with_afterpulses(draws: Any, times: Any) -> Any:
    """A count in thirty has an afterpulse, after 1 us in the mean."""
    late = times[draws.random(len(times)) < 1 / 30]
    return np.concatenate((times, late + draws.exponential(1e-6, len(late)) + PERIOD))


def test_afterpulses_are_taken_off_by_those_of_a_lamp() -> None:
    """Light of 20 kHz beside a lamp of 100 kHz: before, G rises to 2.6 at the first delays."""
    draws = np.random.default_rng(2)
    light = with_afterpulses(draws, on_and_off(draws, 20_000, 10.0))
    lamp = with_afterpulses(draws, level(draws, 100_000, 8.0))
    curve, pattern = (correlation_by_segments(events_of([part(draws, times, 2.0)]), 1, 1, levels=4) for times in (light, lamp))
    early = (curve.ticks > 1) & (curve.ticks * PERIOD < 2e-6)
    clean = fcs.without_afterpulsing(curve, pattern)
    weights = 1 / clean.errors[early] ** 2
    before, after = (np.average(one.values[early] - 1, weights=weights) for one in (curve, clean))
    assert before > 1.3 and after == pytest.approx(1, abs=max(0.03, 4 * weights.sum() ** -0.5))
    assert (clean.errors[early] >= curve.errors[early]).all() and clean.segments.shape == curve.segments.shape
    with pytest.raises(ValueError, match="other delays"):
        fcs.without_afterpulsing(curve, correlation_by_segments(events_of([part(draws, lamp, 2.0)]), 1, 1, lags=8))


def curve_of(values: Any, errors: Any, rates: tuple[float, float], unit: float | None = None) -> Curve:
    values, errors = np.array(values), np.array(errors)
    return Curve(np.arange(1, len(values) + 1), np.zeros(len(values), np.int64), values, errors, np.stack([values, values + 0.1]), unit, rates)


def test_afterpulses_and_background_are_those_of_the_formulas() -> None:
    """Of a pattern of three times the rate, and with fewer delays, behind which nothing is taken off."""
    curve, pattern = curve_of([2.0, 1.8, 1.5], [0.3, 0.4, 0.2], (2.0, 8.0)), curve_of([1.4, 1.2], [0.1, 0.1], (6.0, 24.0))
    clean = fcs.without_afterpulsing(curve, pattern)
    assert clean.values == pytest.approx([2 - 3 * 0.4, 1.8 - 3 * 0.2, 1.5]) and clean.errors == pytest.approx([np.hypot(0.3, 0.3), 0.5, 0.2])
    assert clean.segments == pytest.approx(curve.segments - [1.2, 0.6, 0])
    assert fcs.without_afterpulsing(pattern, curve).values == pytest.approx([1.4 - 1 / 3, 1.2 - 0.8 / 3])
    slow = curve_of([2.0], [0.3], (2e-6, 8e-6), unit=1e-3)
    assert fcs.signal_of(slow, 1e-3, 2e-3) == pytest.approx(np.sqrt(0.5 * 0.75)) and fcs.signal_of(slow, 9.0) == 0
    whole = fcs.curve_without_background(slow, 0.5)
    assert [whole.values[0], whole.errors[0], *whole.segments[:, 0]] == pytest.approx([5, 1.2, 5, 5.4])


def test_errors_of_what_is_converted_are_those_of_its_parts() -> None:
    fit: Any = SimpleNamespace(values={"number": 2.0, "diffusion": 1e-4, "structure": 6.0}, errors={"number": 0.1, "diffusion": 8e-6})
    focus = fcs.Focus.calibrated(fit, 4e-10, 2.4e-11)
    assert focus.radius == pytest.approx(4e-7) and focus.radius_error / focus.radius == pytest.approx(0.05) and focus.structure == 6
    assert focus.constant(fit) == pytest.approx((4e-10, 4e-10 * np.hypot(0.1, 0.08)))
    density = 2 / (6.02214076e23 * 1e3 * np.pi**1.5 * 6 * 4e-7**3)
    assert focus.concentration(fit) == pytest.approx((density, density * np.hypot(0.15, 0.05)))
    assert fcs.brightness(fit, 5000.0, 1000.0) == pytest.approx((2000, 100)) and fcs.brightness(fit, 5000.0)[0] == 2500


def patterns_of(*lifetimes: float | None) -> Any:
    """The decays of species in bins of 1 ns: 100,000 photons each."""
    draws = np.random.default_rng(9)
    return np.array([np.bincount(part(draws, np.zeros(100_000), one, 1)[1] // 10, minlength=50) for one in lifetimes])


def test_filters_tell_species_apart_by_their_lifetimes() -> None:
    """A source of 1 ns that switches on and off, and a steady one of 4 ns, as bright: alone 1, together 1 / 4, across nothing."""
    draws, seconds = np.random.default_rng(3), 6.0
    events = events_of([part(draws, on_and_off(draws, 30_000, seconds), 1.0), part(draws, level(draws, 30_000, seconds), 4.0)])
    rows = fcs.filters(patterns_of(1.0, 4.0), np.bincount(events["dtime"] // 10, minlength=50))
    counted = [fcs.Filtered([1], filter=row, width=10).weights(events).sum() / 4096 for row in rows]
    assert counted == pytest.approx([30_000 * seconds] * 2, rel=0.03)
    groups = [fcs.Filtered(filter=row, width=10) for row in rows]
    own, across = (correlation_by_segments(events, groups[0], other, levels=14) for other in groups)
    assert own.rates[0] / PERIOD == pytest.approx(30_000, rel=0.03)
    for curve, known in ((own, 1.0), (across, 0.0), (correlation_by_segments(events, 1, 1, levels=14), 0.25)):
        found, error = height(curve)
        assert abs(found - known) < max(4 * error, 0.01) and error < 0.05


def test_filters_take_off_afterpulses() -> None:
    """Afterpulses come at any delay: they are a species with a level decay."""
    draws = np.random.default_rng(4)
    light = on_and_off(draws, 30_000, 15.0)
    late = light[draws.random(len(light)) < 1 / 20]
    late = late + draws.exponential(1e-6, len(late)) + PERIOD
    events = events_of([part(draws, light, 2.0), part(draws, late, None)])
    rows = fcs.filters(patterns_of(2.0, None), np.bincount(events["dtime"] // 10, minlength=50))
    curve = correlation_by_segments(events, *[fcs.Filtered(filter=rows[0], width=10)] * 2, levels=4)
    early = (curve.ticks > 1) & (curve.ticks * PERIOD < 2e-6)
    weights = 1 / curve.errors[early] ** 2
    assert np.average(curve.values[early] - 1, weights=weights) == pytest.approx(1, abs=max(0.03, 4 * weights.sum() ** -0.5))


def test_filters_are_those_of_the_formula() -> None:
    patterns, decay = np.array([[8.0, 1, 1, 0], [2.0, 3, 5, 0]]), np.array([10.0, 4, 1, 0])
    rows = fcs.filters(patterns, decay)
    assert rows @ (patterns / 10).T == pytest.approx(np.eye(2), abs=1e-12) and ((rows == 0) == [False, False, False, True]).all()
    for bad in (patterns[:, :3], -patterns, np.array([patterns[0], patterns[0]])):
        with pytest.raises(ValueError):
            fcs.filters(bad, decay)
    plain = fcs.Filtered([1], [(0, 3)], filter=np.array([0.5, -2.0]), width=2)
    events = np.zeros(5, ptulab.EVENT)
    events["number"], events["dtime"] = (1, 1, 1, 2, 1), (0, 2, 3, 0, 9)
    assert plain.weights(events).tolist() == [2048, -8192, 0, 0, 0]
    assert Group([1]).weights(events).tolist() == [True, True, True, False, True]


@pytest.mark.parametrize("dense", [True, False])
def test_weights_of_either_sign_are_multiplied(dense: bool) -> None:
    draws = np.random.default_rng(6)
    times = np.sort(draws.choice(400 if dense else 40_000, 200, replace=False))
    one, two = draws.integers(-3, 4, 200), draws.integers(-3, 4, 200)
    ours = ptulab.segments.correlation(times, one, two, lags=8, levels=1)
    steps = times[None] - times[:, None]
    assert ours.tolist() == [int((np.outer(one, two) * (steps == lag)).sum()) for lag in range(1, 9)]


def test_a_focus_is_calibrated_and_converts() -> None:
    """By a dye of 430 um^2 a second in a focus of 0.25 um: errors of what is converted are as their scatter, within a tenth."""
    known, draws, times = fcs.Focus(0.25e-6, 0.0, 5.0), np.random.default_rng(7), delays(8, 20)[0] * 1e-6
    found = []
    for _ in range(100):
        fitted = []
        for number, constant in ((3.0, 430e-12), (1.5, 60e-12)):
            exact = fits.fcs_model(times, number, known.radius**2 / 4 / constant, structure=5.0)
            fitted.append(fits.fit_fcs(times, draws.normal(exact, 0.004), np.full(len(times), 0.004)))
        focus = fcs.Focus.calibrated(fitted[0], 430e-12)
        bright = fcs.brightness(fitted[1], 33_000.0, 3_000.0)
        found.append((*focus.constant(fitted[1]), *focus.concentration(fitted[1]), focus.radius, focus.radius_error, *bright))
    values, errors = np.array(found)[:, ::2], np.array(found)[:, 1::2]
    truth = [60e-12, 1.5 / (6.02214076e23 * 1e3 * np.pi**1.5 * 5 * 0.25e-6**3), 0.25e-6, 20_000]
    assert values.mean(axis=0) == pytest.approx(truth, rel=0.03)
    assert np.sqrt((errors**2).mean(axis=0)) == pytest.approx(values.std(axis=0), rel=0.1)
    assert known.litres == pytest.approx(0.435e-15, rel=0.01)
