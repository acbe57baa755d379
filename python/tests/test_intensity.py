"""Photon counting histograms, changes of brightness, and times on and off, against made light whose truth is known."""

import math
from collections.abc import Callable
from typing import Any

import numpy as np
import pytest
from scipy.stats import kstest, poisson

import ptulab
from ptulab import intensity
from ptulab.fits import Fit

FAR = 3.5  # beyond it a molecule gives a part of 5e-6 of what it gives in the centre


def bins(draws: Any, many: int, number: float, brightness: float, background: float = 0.0) -> Any:
    """The photons of bins: molecules anywhere within FAR, as many as Poisson's law has, each in a Gaussian profile."""
    mean = number * (4 / 3 * math.pi * FAR**3) / (2 * math.pi) ** 1.5  # in a sphere, whose unit is w / 2^0.5 across and z0 / 2^0.5 along
    molecules = draws.poisson(mean, many)
    radii = FAR * np.cbrt(draws.random(molecules.sum()))
    light = np.bincount(np.repeat(np.arange(many), molecules), 2**1.5 * brightness * np.exp(-(radii**2)), many)
    return np.bincount(draws.poisson(light + background))


def scatter(fits: list[Fit], **known: float) -> None:
    """The values lie around what is known, and their errors are within 10 % of how they scatter."""
    for name, value in known.items():
        values, errors = np.transpose([(fit.values[name], fit.errors[name]) for fit in fits])
        spread = float(values.std(ddof=1))
        assert float(values.mean()) == pytest.approx(value, abs=4 * spread / math.sqrt(len(fits)) + 0.03 * value), name
        assert math.sqrt(float(np.mean(errors**2))) == pytest.approx(spread, rel=0.1), name


# ## Photon counting histograms


def test_the_law_has_the_cumulants_of_its_molecules() -> None:
    """The n-th factorial cumulant is N e^n n^(-3/2) with N = number / 2^1.5 and e = 2^1.5 * brightness, and background is in the first."""
    law, n = intensity.pch(200, 3.0, 1.2, background=0.7, number_2=5.0, brightness_2=0.3), np.arange(200)
    assert law.sum() == pytest.approx(1, abs=1e-9) and law.min() >= 0
    one, two, three = (float(law @ np.prod([n - k for k in range(order)], axis=0)) for order in (1, 2, 3))
    each = [3.0 / 2**1.5 * (2**1.5 * 1.2) ** k * k**-1.5 + 5.0 / 2**1.5 * (2**1.5 * 0.3) ** k * k**-1.5 for k in (1, 2, 3)]
    assert one == pytest.approx(each[0] + 0.7) and two - one**2 == pytest.approx(each[1])
    assert three - 3 * two * one + 2 * one**3 == pytest.approx(each[2])
    assert each[1] / each[0] ** 2 == pytest.approx((3 * 1.2**2 + 5 * 0.3**2) / (3 * 1.2 + 5 * 0.3) ** 2)  # as G(0) - 1 of fcs


def test_the_law_without_and_with_few_molecules() -> None:
    n = np.arange(40)
    assert intensity.pch(40, 0.0, 1.0, background=4.0) == pytest.approx(poisson.pmf(n, 4.0))
    assert intensity.pch(40, 1e6, 4e-6) == pytest.approx(poisson.pmf(n, 4.0), abs=1e-5)
    plane = intensity.pch(60, 3.0, 1.2, dimensions=2)  # an n-th factorial cumulant of N e^n / n with N = number / 2
    assert plane @ np.arange(60) == pytest.approx(3.6) and plane @ (np.arange(60) - 3.6) ** 2 == pytest.approx(3.6 + 3 * 1.2**2)
    both = np.convolve(intensity.pch(40, 2.0, 1.5), poisson.pmf(n, 0.5))[:40]
    assert intensity.pch(40, 2.0, 1.5, background=0.5) == pytest.approx(both)
    bright = intensity.pch(4000, 1.0, 500.0)
    assert bright.sum() == pytest.approx(1, abs=1e-3) and bright @ np.arange(4000) == pytest.approx(500, rel=0.02)


def test_made_light_has_that_law() -> None:
    found = bins(np.random.default_rng(1), 100_000, 2.0, 1.5, 0.3)
    expected = 100_000 * intensity.pch(len(found), 2.0, 1.5, background=0.3)
    often = expected > 20
    assert float(((found - expected)[often] ** 2 / expected[often]).sum()) == pytest.approx(often.sum(), abs=4 * math.sqrt(2 * often.sum()))


def test_number_and_brightness_and_their_errors() -> None:
    draws = np.random.default_rng(14)
    law = intensity.pch(80, 2.0, 1.5)
    scatter([intensity.fit_pch(draws.multinomial(5_000, law)) for _ in range(100)], number=2.0, brightness=1.5)
    fit = intensity.fit_pch(bins(draws, 100_000, 0.5, 3.0, 0.3), fixed={"background": 0.3})
    assert fit.values["number"] == pytest.approx(0.5, rel=0.03) and fit.values["brightness"] == pytest.approx(3, rel=0.03)
    assert fit.reduced == pytest.approx(1, abs=0.5) and math.isnan(fit.errors["background"])
    assert fit.model.eval(fit.parameters, axis=np.arange(5)) == pytest.approx(fit.curve[:5])


def test_bins_that_are_wrong_are_left_out_of_a_fit() -> None:
    """Of bins without a photon many more, as of a shutter, and some with very many, as of dust: the others tell what is known."""
    draws = np.random.default_rng(15)
    molecules, states = draws.multinomial(100_000, intensity.pch(80, 2.0, 1.5)), np.bincount(draws.poisson(np.where(draws.random(20_000) < 0.4, 20.0, 2.0)), minlength=80)
    for frequencies in (molecules, states):
        frequencies[0] += 9_000
        frequencies[60:] += 20
    for last in (60, 59.5):
        fit = intensity.fit_pch(molecules, span=(1, last))
        assert fit.axis.tolist() == list(range(1, 60)) and fit.reduced == pytest.approx(1, abs=0.6)
        assert all(abs(fit.values[name] - known) < 4 * fit.errors[name] < 0.2 for name, known in (("number", 2.0), ("brightness", 1.5)))
    fit = intensity.fit_two_states(states, span=(0.5, 60))
    assert fit.reduced == pytest.approx(1, abs=0.7) and fit.axis[0] == 1
    assert all(abs(fit.values[name] - known) < 4 * fit.errors[name] < 0.3 for name, known in (("dark", 2.0), ("bright", 20.0), ("part", 0.4)))
    molecules[60:] = 0
    fit = intensity.fit_pch(molecules, span=(1, math.inf))
    assert fit.axis[0] == 1 and fit.axis[-1] > np.flatnonzero(molecules)[-1] and abs(fit.values["number"] - 2) < 4 * fit.errors["number"]
    assert intensity.fit_pch(molecules).reduced > 5
    for span in ((0, 1), (70, 90), (90, 70)):
        with pytest.raises(ValueError, match="no histogram"):
            intensity.fit_pch(molecules, span=span)


def test_two_species() -> None:
    """Two species that differ five times in brightness: each as its law tells, and as one species the fit is bad."""
    draws = np.random.default_rng(3)
    law = intensity.pch(150, 0.5, 5.0, number_2=3.0, brightness_2=1.0)
    some = [draws.multinomial(200_000, law) for _ in range(100)]
    found = [intensity.fit_pch(one, species=2) for one in some[:2]]
    more = [intensity.fit_pch(one, species=2, start=found[0].values) for one in some[2:]]
    scatter([*found, *more], number=0.5, brightness=5.0, number_2=3.0, brightness_2=1.0)
    assert found[0].reduced < 1.5 < 5 < intensity.fit_pch(some[0]).reduced


@pytest.mark.parametrize("wrong", [[5], [0, 0, 0], [[1, 2]], [1, -1, 3]])
@pytest.mark.parametrize("fit", [intensity.fit_pch, intensity.fit_two_states])
def test_no_histogram(fit: Callable[..., Any], wrong: Any) -> None:
    with pytest.raises(ValueError, match="no histogram"):
        fit(np.array(wrong))


# ## Changes


def stream(draws: Any, *levels: tuple[float, float]) -> Any:
    """The times in ns of photons of levels, each with its seconds and photons a second, and when each level ends."""
    ends = np.cumsum([seconds for seconds, _ in levels])
    times = [draws.uniform(end - seconds, end, draws.poisson(seconds * rate)) for end, (seconds, rate) in zip(ends, levels)]
    return (np.sort(np.concatenate(times)) * 1e9).astype(np.int64), ends


def test_a_change_is_found_and_the_rates_on_either_side() -> None:
    draws, found = np.random.default_rng(4), []
    for _ in range(1000):
        levels = intensity.change_points(stream(draws, (0.5, 1e3), (0.5, 2.5e3))[0], level=0.01)
        found.append((*levels.rates[[0, -1]] * 1e9, *levels.errors[[0, -1]] * 1e9, levels.edges[1] / 1e9, len(levels.photons)))
    *_, at, many = np.transpose(found)
    assert np.mean(many == 2) > 0.98 and np.median(at) == pytest.approx(0.5, abs=0.002) and np.abs(at - 0.5).mean() < 0.01
    low, high, low_errors, high_errors, *_ = np.transpose(found)[:, many == 2]
    for rates, errors, known in ((low, low_errors, 1000), (high, high_errors, 2500)):
        assert rates.mean() == pytest.approx(known, rel=0.01) and errors.mean() == pytest.approx(rates.std(), rel=0.1)


@pytest.mark.parametrize("many", [100, 2000])
def test_steady_light_changes_no_more_often_than_told(many: int) -> None:
    draws = np.random.default_rng(5)
    changed = [len(intensity.change_points(np.cumsum(draws.integers(1, 999, 1) + draws.exponential(1e4, many)).astype(np.int64), level=0.1).photons) > 1 for _ in range(400)]
    assert 0.03 < np.mean(changed) < 0.1 + 3 * math.sqrt(0.1 * 0.9 / 400)


def test_levels_of_a_long_stream() -> None:
    """Of 200 levels between 0.1 and 0.3 s each change of a factor of three or more is found, hardly one more, and where it is."""
    draws = np.random.default_rng(6)
    rates = np.tile([2e3, 8e3, 25e3, 6e3], 50)
    times, ends = stream(draws, *zip(draws.uniform(0.1, 0.3, 200), rates))
    levels = intensity.change_points(times, level=0.01)
    assert len(times) > 2 * intensity.COARSE and 200 <= len(levels.photons) <= 206
    nearest = np.abs(levels.edges[1:-1, None] / 1e9 - ends[None, :-1]).min(axis=0)
    assert np.mean(nearest < 5e-3) > 0.98 and int(levels.photons.sum()) == len(times) - 1
    assert levels.durations.sum() == times[-1] - times[0]


def test_a_change_that_others_hid_is_looked_for_again() -> None:
    """The first place of a division lies within the bright span, whose ends are found only then: no false one is left."""
    draws = np.random.default_rng(7)
    for _ in range(20):
        levels = intensity.change_points(stream(draws, (0.3, 1e3), (0.3, 6e3), (0.3, 1e3))[0], level=0.01)
        assert levels.edges[1:-1] / 1e9 == pytest.approx([0.3, 0.6], abs=0.01)


def test_photons_of_one_tick_and_few_photons() -> None:
    for times in ([5, 5], [3, 3, 3, 3], list(range(15)), [0] * 40):
        levels = intensity.change_points(np.array(times))
        assert (levels.edges.tolist(), levels.photons.tolist()) == ([times[0], times[-1]], [len(times) - 1])
        assert np.isfinite(levels.rates).all()
    burst = np.array([*range(0, 100_000, 1000), *[100_000] * 100, *range(100_000, 200_000, 1000)])
    assert intensity.change_points(burst).edges.tolist()[1:-1] == [pytest.approx(100_000, abs=1000)] * 2
    for wrong in (np.array([3, 2]), np.array([1]), np.zeros((2, 2))):
        with pytest.raises(ValueError, match="times, which must rise"):
            intensity.change_points(wrong)
    with pytest.raises(ValueError, match="level of 1"):
        intensity.change_points(np.arange(50), level=1)


# ## Two states


def test_two_states_and_their_threshold() -> None:
    draws = np.random.default_rng(8)
    fits = [intensity.fit_two_states(np.bincount(draws.poisson(np.where(draws.random(2000) < 0.4, 20.0, 4.0)))) for _ in range(100)]
    scatter(fits, dark=4.0, bright=20.0, part=0.4)
    at = intensity.threshold(fits[0])
    dark, bright, part = (fits[0].values[name] for name in ("dark", "bright", "part"))
    assert dark < at < bright and (1 - part) * math.exp(-dark) * dark**at == pytest.approx(part * math.exp(-bright) * bright**at)
    assert fits[0].reduced == pytest.approx(1, abs=0.7)


def test_times_on_and_off_by_hand() -> None:
    on, off = intensity.on_and_off(np.array([9, 9, 1, 1, 1, 8, 5, 9, 2, 7]), 5, width=10)
    assert (on.tolist(), off.tolist()) == ([10, 10], [30, 10, 10])  # 9 9 and 7 are cut by the measurement; 5 isn't above 5
    levels = intensity.Levels(np.array([0, 10, 30, 60, 100, 150]), np.array([10, 200, 600, 40, 500]))
    assert levels.rates.tolist() == [1, 10, 20, 1, 10] and levels.errors[1] == pytest.approx(10 / math.sqrt(200))
    on, off = intensity.on_and_off(levels, 5.0)
    assert (on.tolist(), off.tolist()) == ([50], [40])
    for few in ([], [3], [3, 3], [1, 9]):
        assert [len(times) for times in intensity.on_and_off(np.array(few, dtype=np.int64), 5)] == [0, 0]


def test_exponential_times_and_their_errors() -> None:
    draws = np.random.default_rng(9)
    fits = [intensity.fit_durations(draws.exponential(0.2, draws.poisson(300)), span=(0.02, math.inf)) for _ in range(100)]
    scatter(fits, time=0.2, number=300 * math.exp(-0.1))
    assert np.mean([fit.reduced for fit in fits]) == pytest.approx(1, abs=0.1)


def test_a_power_of_time_and_its_error() -> None:
    draws = np.random.default_rng(10)
    fits = [intensity.fit_durations(0.01 * draws.random(300) ** (-1 / 0.6), "power") for _ in range(100)]
    scatter(fits, exponent=1.6)
    alone = intensity.fit_durations(0.01 * draws.random(300) ** (-1 / 0.6), "power", span=(0.05, 10.0))
    assert alone.axis.min() > 0.05 and alone.axis.max() < 10 and abs(alone.values["exponent"] - 1.6) < 4 * alone.errors["exponent"]
    assert intensity.fit_durations(draws.exponential(1.0, 3000) + 0.1, "power").reduced > 5


def test_times_in_whole_bins() -> None:
    """An exponential that is seen in bins of half its time keeps it; a power keeps its exponent from some bins on."""
    draws = np.random.default_rng(11)
    fits = [intensity.fit_durations(0.1 * np.ceil(draws.exponential(0.2, 400) / 0.1), width=0.1) for _ in range(100)]
    scatter(fits, time=0.2)
    long = np.rint(0.01 * draws.random(200_000) ** (-1 / 0.6) / 1e-3) * 1e-3
    fit = intensity.fit_durations(long, "power", span=(0.02, 50.0), width=1e-3)
    assert fit.values["exponent"] == pytest.approx(1.6, abs=4 * fit.errors["exponent"])
    with pytest.raises(ValueError, match="of 2 times"):
        intensity.fit_durations(np.array([2.0, 2.0]))
    with pytest.raises(ValueError, match="law level"):
        intensity.fit_durations(np.array([2.0, 3.0, 4.0]), "level")  # type: ignore[arg-type]
    with pytest.raises(ptulab.FitError, match="2 cells"):
        intensity.fit_durations(np.array([2.0, 3.0]), width=1.0)


def test_blinking_from_photons_to_times() -> None:
    """A source that is on for 50 and off for 100 ms in the mean: by change points and by bins, the times come out right."""
    draws = np.random.default_rng(12)
    spans = np.stack([draws.exponential(0.05, 400), draws.exponential(0.1, 400)], axis=1).ravel()
    times, _ = stream(draws, *zip(spans, np.tile([20e3, 1e3], 400)))
    by_changes = [one * 1e-9 for one in intensity.on_and_off(intensity.change_points(times), 5e3 * 1e-9)]
    counts = np.bincount(times // 1_000_000)
    by_bins = intensity.on_and_off(counts, intensity.threshold(intensity.fit_two_states(np.bincount(counts))), width=1e-3)
    for on, off in (by_changes, by_bins):
        for found, known in ((on, 0.05), (off, 0.1)):
            fit = intensity.fit_durations(found, span=(0.01, math.inf), width=0.0 if found is not by_bins[0] and found is not by_bins[1] else 1e-3)
            assert abs(fit.values["time"] - known) < 4 * fit.errors["time"] + 0.03 * known
    assert kstest(by_changes[0][by_changes[0] > 0.01] - 0.01, "expon", (0, 0.05)).pvalue > 0.001
