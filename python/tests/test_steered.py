"""Fits that are held, begun, bounded and shared, with other models, and what comes out of them."""

import warnings
from collections.abc import Callable
from pathlib import Path
from typing import Any

import lmfit
import numpy as np
import pytest
from simulated import told_over_scatter

import ptulab
from ptulab import antibunching, fits
from ptulab.antibunching import Coincidences, coincidences, start_stops, without_background

TIMES = np.logspace(-6, 0, 120)
AXIS = np.arange(200) * 0.1  # nanoseconds


def within(fit: fits.Fit, name: str, known: float, errors: float = 4) -> bool:
    return abs(fit.values[name] - known) < errors * fit.errors[name]


def tail(seed: int = 1, lifetime: float = 2.5, height: float = 500.0, background: float = 3.0) -> Any:
    return np.random.default_rng(seed).poisson(height * np.exp(-AXIS / lifetime) + background)


def curve(error: float = 0.002, **known: float) -> Any:
    return np.random.default_rng(1).normal(fits.fcs_model(TIMES, structure=5.0, **known), error), np.full(120, error)


def test_parameters_are_held_begun_and_bounded() -> None:
    free = fits.fit_tail(tail(), AXIS, 0.0)
    held = fits.fit_tail(tail(), AXIS, 0.0, fixed={"background": 3.0}, start={"lifetime_1": 4.0})
    assert held.values["background"] == 3 and np.isnan(held.errors["background"])
    assert held.errors["lifetime_1"] < free.errors["lifetime_1"] and held.values["lifetime_1"] == pytest.approx(2.5, rel=0.03)
    within = fits.fit_tail(tail(), AXIS, 0.0, bounds={"lifetime_1": (2.6, 9.0)})
    assert within.values["lifetime_1"] == pytest.approx(2.6, rel=1e-3) and np.isnan(within.errors["lifetime_1"])
    some = curve(number=2.0, diffusion=3e-4)
    frees: list[Any] = [{"start": {"structure": 4.0}}, {"bounds": {"structure": (2.0, 9.0)}}]
    for more in frees:
        assert fits.fit_fcs(TIMES, *some, **more).errors["structure"] > 0
    assert fits.fit_fcs(TIMES, *some, fixed={"structure": 7.0}).values["structure"] == 7


@pytest.mark.parametrize(
    "steer",
    [
        {"fixed": {"life": 2.0}},
        {"fixed": {"background": 2.0}, "start": {"background": 1.0}},
        {"bounds": {"lifetime_1": (3.0, 2.0)}},
        {"bounds": {"lifetime_1": (2.0, 3.0)}, "start": {"lifetime_1": 1.0}},
    ],
)
def test_what_cannot_be_held_or_begun(steer: Any) -> None:
    with pytest.raises(ValueError):
        fits.fit_tail(tail(), AXIS, 0.0, **steer)


def test_a_fit_with_all_parameters_held_is_none() -> None:
    with pytest.raises(ptulab.FitError, match="0 parameters"):
        fits.fit_tail(tail(), AXIS, 0.0, fixed={"background": 3.0, "lifetime_1": 2.5, "amplitude_1": 500.0})


def test_lmfits_model_and_parameters_come_out() -> None:
    fit = fits.fit_tail(tail(), AXIS, 1.0)
    model, parameters = fit.model, fit.parameters
    assert isinstance(model, lmfit.Model) and isinstance(parameters, lmfit.Parameters)
    assert model.eval(parameters, axis=fit.axis) == pytest.approx(fit.curve)
    assert {name: one.stderr for name, one in parameters.items()} == fit.errors
    again = model.fit(fit.data, parameters, axis=fit.axis, weights=1 / np.sqrt(fit.curve))
    assert again.best_values["lifetime_1"] == pytest.approx(fit.values["lifetime_1"], abs=fit.errors["lifetime_1"])


def test_intervals_hold_the_truth_as_often_as_told() -> None:
    """Of a lifetime in 25 decays of 300 photons, in units of seconds: 68 % hold it, and they aren't symmetric."""
    draws, inside, skew = np.random.default_rng(3), 0, []
    expected = 300 * 1e-1 * np.exp(-AXIS / 2.0) / 2.0 + 0.3
    for _ in range(25):
        fit = fits.fit_tail(draws.poisson(expected), AXIS * 1e-9, 0.0, fixed={"background": 0.3})
        (_, low), (_, best), (_, high) = fit.intervals("lifetime_1", sigmas=[1])["lifetime_1"]
        inside += low < 2e-9 < high
        skew.append((high - best) / (best - low))
        assert high - low == pytest.approx(2 * fit.errors["lifetime_1"], rel=0.1)
    assert inside / 25 == pytest.approx(0.683, abs=0.2) and 1.0 < np.mean(skew) < 1.3
    alike = fits.fit_fcs(TIMES, curve(number=2.0, diffusion=3e-4)[0])
    (_, low), _, (_, high) = alike.intervals("number", sigmas=[1])["number"]
    assert high - low == pytest.approx(2 * alike.errors["number"], rel=0.1)
    with pytest.raises(ptulab.FitError, match="background"):
        fit.intervals("background")


def test_residuals_of_a_wrong_model_are_like_their_neighbours() -> None:
    both = np.random.default_rng(5).poisson(3000 * np.exp(-AXIS / 0.8) + 3000 * np.exp(-AXIS / 4.0) + 5)
    wrong, right = (fits.fit_tail(both, AXIS, 0.0, terms=terms) for terms in (1, 2))
    assert wrong.autocorrelation[1] > 0.5 and np.abs(right.autocorrelation[1:40]).max() < 4 / np.sqrt(200)
    assert right.autocorrelation[0] == pytest.approx(1) and len(right.autocorrelation) == 100
    left = right.residuals
    assert right.autocorrelation[3] == pytest.approx((left[3:] * left[:-3]).mean() / (left**2).mean())


def test_shared_lifetimes_are_told_better() -> None:
    """Errors of a shared lifetime are those of their weighted mean, and in 40 pairs of decays as their scatter, which these tell to 2 %."""
    found: list[Any] = []
    alone = []
    for seed in range(40):
        each = [fits.fit_tail(tail(2 * seed + n, 2.5, height), AXIS, 0.0) for n, height in enumerate((100.0, 300.0))]
        one, other = fits.fit_together(each, ["lifetime_1"])
        assert one.values["lifetime_1"] == other.values["lifetime_1"] and one.errors["lifetime_1"] == other.errors["lifetime_1"]
        found.append(one.whole)
        alone.append([fit.errors["lifetime_1"] for fit in each])
    known = {"lifetime_1": 2.5, "amplitude_1_of_1": 100.0, "background_of_1": 3.0, "amplitude_1_of_2": 300.0, "background_of_2": 3.0}
    values, errors = np.transpose([(fit.values["lifetime_1"], fit.errors["lifetime_1"]) for fit in found])
    assert told_over_scatter(found, known) == pytest.approx(dict.fromkeys(known, 1.0), abs=0.1) and values.mean() == pytest.approx(2.5, rel=0.02)
    assert one.errors["lifetime_1"] == errors[-1]
    assert np.mean(errors) == pytest.approx(float(np.mean((np.array(alone) ** -2.0).sum(axis=1) ** -0.5)), rel=0.03)
    assert one.values["amplitude_1"] == pytest.approx(100, rel=0.1) and other.values["amplitude_1"] == pytest.approx(300, rel=0.1)
    assert set(one.lmfit.params) == {"lifetime_1", *(f"{name}_of_{n}" for name in ("amplitude_1", "background") for n in (1, 2))}
    assert one.curve.shape == one.residuals.shape == (200,) and one.reduced == other.reduced == pytest.approx(1, abs=0.3)
    interval = one.intervals("lifetime_1", sigmas=[1])["lifetime_1"]
    assert interval[2][1] - interval[0][1] == pytest.approx(2 * one.errors["lifetime_1"], rel=0.1)


def test_what_cannot_be_shared() -> None:
    one = fits.fit_tail(tail(), AXIS, 0.0)
    parts = np.random.default_rng(2).normal(fits.fcs_model(TIMES, 2.0, 3e-4), 0.01, (8, 120))
    by_parts = [fits.fit_fcs(TIMES, some.mean(axis=0), segments=some, dimensions=2) for some in (parts, parts[:5])]
    alike = fits.fit_fcs(TIMES, parts[0], dimensions=2)
    bad: list[Callable[[], object]] = [
        lambda: fits.fit_together([one], ["diffusion"]),
        lambda: fits.fit_together(by_parts, ["diffusion"]),
        lambda: fits.fit_together([by_parts[0], alike], ["diffusion"]),
        lambda: fits.fit_together([one, alike], ["background"]),
    ]
    for call in bad:
        with pytest.raises(ValueError):
            call()


def test_segments_that_move_together_count_once() -> None:
    """The same curve twice tells what it told alone: its segments are those of one measurement."""
    draws = np.random.default_rng(6)
    parts = draws.normal(fits.fcs_model(TIMES, 2.0, 3e-4), 0.01, (9, 120))
    fit = fits.fit_fcs(TIMES, parts.mean(axis=0), segments=parts, dimensions=2)
    twice = fits.fit_together([fit, fit], ["number", "diffusion", "baseline"])[0]
    assert twice.errors["diffusion"] == pytest.approx(fit.errors["diffusion"], rel=0.02)
    other = draws.normal(fits.fcs_model(TIMES, 4.0, 3e-4), 0.01, (9, 120))
    second = fits.fit_fcs(TIMES, other.mean(axis=0), segments=other, dimensions=2)
    both = fits.fit_together([fit, second], ["diffusion"], bounds={"diffusion": (1e-4, 1e-3)}, start={"baseline": 1.0})
    assert both[0].errors["diffusion"] < fit.errors["diffusion"] and both[0].values["diffusion"] == pytest.approx(3e-4, rel=0.05)


def test_a_model_of_ones_own() -> None:
    def two(axis: Any, height: float, rate: float, level: float) -> Any:
        return height * np.exp(-axis * rate) + level

    start = {"height": 300.0, "rate": 1.0, "level": 1.0}
    ours = fits.fit_tail(tail(), AXIS, 0.0)
    for model in (two, lmfit.Model(two)):
        fit = fits.fit_model(model, AXIS, tail(), start, counts=True)
        assert 1 / fit.values["rate"] == pytest.approx(ours.values["lifetime_1"], rel=1e-4) and fit.reduced == pytest.approx(ours.reduced)
        assert fit.errors["level"] == pytest.approx(ours.errors["background"], rel=1e-3)
    weighted = fits.fit_model(two, AXIS, tail(), start, errors=np.sqrt(np.maximum(tail(), 1)), fixed={"level": 3.0})
    assert weighted.values["level"] == 3 and weighted.values["rate"] == pytest.approx(0.4, rel=0.05)
    parts = np.random.default_rng(1).normal(two(AXIS, 5.0, 0.4, 1.0), 0.1, (10, 200))
    by_parts = fits.fit_model(two, AXIS, parts.mean(axis=0), start, segments=parts)
    assert abs(by_parts.values["rate"] - 0.4) < 4 * by_parts.errors["rate"] and by_parts.errors["rate"] < 0.01
    gap = np.where(AXIS == AXIS[7], np.nan, tail())
    assert len(fits.fit_model(two, AXIS, gap, start).axis) == 199
    some = fits.fit_model(two, AXIS, tail(), start, counts=True, span=(AXIS[20], AXIS[150]))
    assert some.axis.tolist() == AXIS[20:150].tolist() and 1 / some.values["rate"] == pytest.approx(2.5, abs=4 * some.errors["rate"] * 2.5**2)
    with pytest.raises(ValueError, match="told by"):
        fits.fit_model(two, AXIS, tail(), start, counts=True, errors=np.ones(200))


# Decays with scattered light and a measured background.


def test_scattered_light_of_a_span_without_the_pulse_is_refused() -> None:
    """Of 40,000 photons a tenth comes with the pulse, at 2.0 +- 0.12; a span that begins later than it knows nothing of them."""
    draws, edges = np.random.default_rng(9), np.linspace(0, 25, 501)
    pulse = np.histogram(draws.normal(2.0, 0.12, 500_000), edges)[0]
    late = draws.exponential(2.6, 40_000) * (draws.random(40_000) >= 0.1)
    counts = np.histogram((draws.normal(2.0, 0.12, 40_000) + late) % 25, edges)[0]

    def fit(begin: float, **more: Any) -> fits.Fit:
        return fits.fit_reconvolution(counts, pulse, 0.05, period=25.0, scatter=True, span=(begin, 20.0), **more)

    for begin in (2.5, 3.0):
        with pytest.raises(ptulab.FitError, match=r"the span has \S+ of the pulse, .* begin before the pulse is over, or leave scatter out"):
            fit(begin)
    held = fit(3.0, fixed={"scatter": 4e3, "shift": 0.0})
    assert held.values["scatter"] == 4e3 and held.values["lifetime_1"] == pytest.approx(2.6, rel=0.03)
    part = fit(2.15)  # with a tenth of it
    assert abs(part.values["scatter"] - 4e3) < 4 * part.errors["scatter"] < 4e3
    counts = np.roll(counts, 60)  # by a cable of 3
    for told in ({"fixed": {"shift": 3.0}}, {"start": {"shift": 2.9}}):
        part = fit(4.5, **told)
        assert part.values["shift"] == pytest.approx(3.0, abs=0.02) and abs(part.values["scatter"] - 4e3) < 4 * part.errors["scatter"] < 4e3
    with pytest.raises(ptulab.FitError, match="the span has"):
        fit(4.5)


@pytest.mark.parametrize("part", [0.0, 0.1])
def test_scattered_light_and_a_measured_background(part: float) -> None:
    """100,000 photons in bins of 50 ps, of which a tenth comes with the pulse, over a background that rises like a ramp."""
    draws, edges, period = np.random.default_rng(8), np.linspace(0, 25, 501), 25.0
    pulse = np.histogram(draws.normal(2.0, 0.12, 500_000), edges)[0]
    ramp = 5 + 20 * np.arange(500) / 500
    late = draws.exponential(2.6, 100_000) * (draws.random(100_000) >= part)
    counts = np.histogram((draws.normal(2.0, 0.12, 100_000) + late) % period, edges)[0] + draws.poisson(ramp)
    fit = fits.fit_reconvolution(counts, pulse, 0.05, period=period, scatter=True, background=draws.poisson(40 * ramp), start={"shift": 0.01})
    assert fit.values["lifetime_1"] == pytest.approx(2.6, rel=0.02) and fit.values["background"] == pytest.approx(ramp.mean(), rel=0.05)
    assert fit.values["scatter"] == pytest.approx(1e5 * part, abs=1500) and fit.reduced == pytest.approx(1, abs=0.2)
    assert part == 0 or fits.fit_reconvolution(counts, pulse, 0.05, period=period).reduced > 1.5
    some = fits.fit_reconvolution(counts, pulse, 0.05, period=period, scatter=True, background=ramp, span=(1.0, 15.0))
    assert some.axis[0] == 1 and len(some.axis) == 280 and some.values["lifetime_1"] == pytest.approx(2.6, rel=0.02)
    slow = fits.fit_tail(counts, edges[:-1], 3.0, background=ramp)
    assert slow.values["lifetime_1"] == pytest.approx(2.6, rel=0.02) and slow.values["background"] == pytest.approx(ramp.mean(), rel=0.06)
    known, measured = (fits.fit_tail(counts, edges[:-1], 3.0, background=one) for one in (ramp + 0.001, np.rint(ramp)))
    assert known.errors["lifetime_1"] == pytest.approx(slow.errors["lifetime_1"], rel=1e-3) and measured.errors["lifetime_1"] > 1.05 * slow.errors["lifetime_1"]
    for bad in (ramp * 0, ramp[1:], ramp - 9):
        with pytest.raises(ValueError):
            fits.fit_tail(counts, edges[:-1], 3.0, background=bad)


# Correlations of more than one species.


@pytest.mark.parametrize(
    ("known", "more"),
    [
        ({"part_2": 0.3, "diffusion_2": 8e-3}, {"species": 2}),
        ({"part_2": 0.4, "diffusion_2": 1e-2, "triplet": 0.2, "triplet_time": 4e-6}, {"species": 2, "triplet": True}),
        ({"anomaly": 0.8}, {"start": {"anomaly": 1.0}}),
        ({"flow_rate": 800.0}, {"start": {"flow_rate": 200.0}}),
    ],
)
def test_models_beyond_one_species(known: dict[str, float], more: Any) -> None:
    known = {"number": 2.5, "diffusion": 4e-4 if "flow_rate" not in known else 4e-3, **known}
    fit = fits.fit_fcs(TIMES, *curve(error=0.0005, **known), **more)
    assert all(abs(fit.values[name] - value) < 4 * fit.errors[name] for name, value in known.items())
    assert fit.values["diffusion"] == pytest.approx(known["diffusion"], rel=0.03) and fit.reduced == pytest.approx(1, abs=0.3)


def test_models_of_motion_are_those_of_the_formulas() -> None:
    at = np.array([2.0])
    assert fits.fcs_model(at, 1, 2.0, anomaly=0.5, baseline=0)[0] == pytest.approx(0.5)
    assert fits.fcs_model(at, 1, 0.5, anomaly=0.5, structure=2.0, baseline=0)[0] == pytest.approx(1 / 3 / np.sqrt(1.5))
    assert fits.fcs_model(at, 2, 2.0, flow_rate=0.5, baseline=0)[0] == pytest.approx(np.exp(-0.5) / 4)
    assert fits.fcs_model(at, 1, 2.0, part_2=0.25, diffusion_2=1.0, baseline=0)[0] == pytest.approx(0.75 / 2 + 0.25 / 3)


# Dips of g2.


def pairs_of(seed: int, pairs: float, **known: float) -> Coincidences:
    """Cells of 250 ps up to 50 ns on both sides, in ticks of 1 ps, with so many pairs a cell without correlation."""
    ticks = np.arange(401) * 250.0 - 50_000 + 124.5
    exact = antibunching.g2_model(ticks * 1e-12, width=2.5e-10, **known) * pairs
    exact[-1] *= 0.004  # the last cell has one difference
    photons = np.sqrt(pairs / 250 * 1e14)
    return Coincidences(np.random.default_rng(seed).poisson(exact), 50_000, 250, photons, photons, 10**14, 1e-12)


@pytest.mark.parametrize(("bunching", "many"), [(False, 40), (True, 80)])
def test_a_dip_is_found_and_its_errors_are_its_scatter(bunching: bool, many: int) -> None:
    """Two emitters in nine tenths of the light, a cable that is 12.3 ns longer, and detectors of 300 ps."""
    known = {"depth": 0.5, "lifetime": 3e-9, "centre": 12.3e-9, "signal": 0.9, "jitter": 3e-10}
    known |= {"bunching": 0.6, "bunching_time": 2e-8} if bunching else {}
    held = {"signal": 0.9, "jitter": 3e-10}
    found = [antibunching.fit_g2(pairs_of(seed, 1000, **known), bunching=bunching, fixed=held) for seed in range(many)]
    free = {name: value for name, value in known.items() if name not in held} | {"baseline": 1.0}
    assert told_over_scatter(found, free) == pytest.approx(dict.fromkeys(free, 1.0), abs=0.1)
    for name, value in free.items():
        values = np.array([fit.values[name] for fit in found])
        assert values.mean() == pytest.approx(value, abs=5 * values.std() / np.sqrt(many))
    assert np.mean([fit.reduced for fit in found]) == pytest.approx(1, abs=0.05)


@pytest.mark.parametrize("known", [{"depth": 0.5, "lifetime": 3e-9, "centre": 12.3e-9}, {"depth": 0.5, "lifetime": 2e-9, "centre": -12.3e-9, "bunching": 0.6, "bunching_time": 1.5e-8}])
def test_a_fit_of_a_dip_begins_near_it(known: dict[str, float]) -> None:
    """Where nothing is told: at the cell of the dip, with a depth and times that are roughly right."""
    begun = antibunching.fit_g2(pairs_of(1, 100_000, **known), bunching="bunching" in known).lmfit.init_values
    assert begun["centre"] == pytest.approx(known["centre"], abs=2.5e-10) and begun["depth"] == pytest.approx(0.5, rel=0.1)
    assert begun["lifetime"] == pytest.approx(known["lifetime"], rel=0.15) and begun["baseline"] == pytest.approx(1, abs=0.03)
    assert begun.get("bunching", 0) == pytest.approx(known.get("bunching", 0), rel=0.3)
    assert begun.get("bunching_time", 0) == pytest.approx(known.get("bunching_time", 0), rel=0.5)


def test_few_pairs_tell_where_the_dip_is() -> None:
    fit = antibunching.fit_g2(pairs_of(1, 10, depth=0.8, lifetime=5e-9, centre=-2e-8))
    assert abs(fit.values["centre"] + 2e-8) < 1e-9 and abs(fit.values["depth"] - 0.8) < 4 * fit.errors["depth"]
    with pytest.raises(ptulab.FitError):
        antibunching.fit_g2(pairs_of(1, 10, depth=0.95, lifetime=5e-9), span=(0.0, 7.5e-10))


def test_a_dip_is_that_of_the_formula() -> None:
    at = np.linspace(-20, 20, 4001)
    dip = antibunching.g2_model(at, 0.8, 3.0, centre=1.0, bunching=0.5, bunching_time=9.0)
    known = 1 - 0.8 * (1.5 * np.exp(-np.abs(at - 1) / 3) - 0.5 * np.exp(-np.abs(at - 1) / 9))
    assert dip == pytest.approx(known, abs=1e-3)
    wide = antibunching.g2_model(at, 0.8, 3.0, jitter=0.7, width=0.5)
    steps = np.arange(-600, 601) * 0.01
    normal = np.exp(-((steps / 0.7) ** 2) / 2)
    dip = np.exp(-np.abs(np.arange(-3000, 3001)) * 0.01 / 3)
    whole = np.convolve(1 - 0.8 * dip, normal / normal.sum(), "same")
    whole = np.convolve(whole, np.r_[0.5, np.ones(49), 0.5] / 50, "same")
    assert wide == pytest.approx(whole[1000:5001], abs=1e-4)


# Cables and background.


def an_emitter(seed: int, background: float = 0.0, late: int = 0, seconds: float = 0.2) -> Any:
    """Photons of two inputs in ticks of 1 ps of an emitter that is excited after 30 ns and emits after 3 ns, of which one in
    20 is seen, so that g2 is 1 - exp(-t / 2.727 ns), with a part of the photons as background; the second is late."""
    draws, many = np.random.default_rng(seed), round(seconds / 33e-9)
    times = np.cumsum(draws.exponential(30e3, many) + draws.exponential(3e3, many))
    times = times[draws.random(many) < 0.05]
    noise = draws.uniform(0, times[-1], draws.poisson(len(times) * background / (1 - background)))
    times = np.concatenate((times, noise))
    numbers = draws.integers(1, 3, len(times))
    times = np.rint(times + late * (numbers == 2)).astype(np.int64)
    events = np.zeros(len(times), ptulab.EVENT)
    order = np.argsort(times, kind="stable")
    events["time"], events["number"] = times[order], numbers[order]
    return events


def test_a_cable_is_found_by_the_dip_and_taken_off() -> None:
    """A cable that is 12.345 ns longer, in ticks of 1 ps, at 1.7 million photons a second with a fifth of background."""
    events = an_emitter(1, background=0.2, late=12_345)
    fit = antibunching.fit_g2(coincidences(events, 1, 2, 50_000, width=100), fixed={"signal": 0.8})
    assert within(fit, "centre", 12_345) and within(fit, "lifetime", 30e3 / 11) and fit.errors["lifetime"] < 300
    assert abs(fit.values["depth"] - 1) < max(4 * fit.errors["depth"], 0.1) or np.isnan(fit.errors["depth"])
    at_zero = coincidences(events, 1, 2, 50_000, width=100, delays={2: -round(fit.values["centre"])})
    assert abs(antibunching.fit_g2(at_zero, fixed={"signal": 0.8}).values["centre"]) < 4 * fit.errors["centre"]
    known = an_emitter(1, background=0.2)
    for delays in ({2: -12_345}, {1: 12_345}):
        ours = coincidences(events, 1, 2, 5_000, width=100, delays=delays)
        assert (ours.counts == coincidences(known, 1, 2, 5_000, width=100).counts).all() and ours.length == coincidences(events, 1, 2, 1).length
    stops = start_stops(events, 1, 2, 100, 50, delays={2: -12_345})
    assert (stops.counts == start_stops(known, 1, 2, 100, 50).counts).all()


def test_markers_stay_where_they_are() -> None:
    events = np.zeros(3, ptulab.EVENT)
    events["time"], events["number"], events["marker"] = (0, 5, 9), (2, 1, 2), (True, False, True)
    assert coincidences(events, 1, 1, 3, delays={2: 100}).length == 10


def test_background_is_taken_off_with_its_error() -> None:
    """Ratios of peaks at 20 MHz of two emitters in 80 % of the light, known to 2 %: corrected they scatter as they say."""
    draws, signal, found = np.random.default_rng(5), 0.8, []
    for _ in range(400):
        measured = 1 - signal**2 * 0.5
        pairs = draws.poisson(np.where(np.arange(-10, 11) == 0, measured, 1.0) * 400)
        ratio, error = Coincidences(pairs, 10, 1, 1e5, 1e5, 10**7).central_ratio()
        found.append(without_background(ratio, error, draws.normal(signal, 0.02), 0.02))
    values, errors = np.transpose(found)
    assert values.mean() == pytest.approx(0.5, abs=0.015) and np.sqrt((errors**2).mean()) == pytest.approx(values.std(), rel=0.1)
    curve, bars = without_background(np.array([1.0, 1.5]), np.array([0.1, 0.1]), 0.5)
    assert curve.tolist() == [1, 3] and bars == pytest.approx([0.4, 0.4])
    for bad in (0.0, 1.1):
        with pytest.raises(ValueError, match="signal"):
            without_background(1.0, 0.1, bad)


def test_a_router_is_warned_of(make_file: Callable[..., Path]) -> None:
    path = make_file("PicoHarpT3", [(n, 1 + n % 2, 9) for n in range(50)])
    with pytest.warns(UserWarning, match="router"):
        coincidences(path, 1, 2, 4)
    with warnings.catch_warnings():
        warnings.simplefilter("error")
        coincidences(path, 1, 1, 4)
