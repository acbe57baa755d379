"""What every fit does, exactly: straight models, whose best fit and errors are known in closed form, and the laws of counts."""

from dataclasses import replace
from typing import Any

import lmfit
import numpy as np
import pytest

import ptulab
from ptulab import _fitting, fits
from ptulab.antibunching import without_background

AXIS = np.arange(1.0, 13.0)
DRAWS = np.random.default_rng(3)


def line(axis: Any, level: float, slope: float) -> Any:
    return level + slope * axis


def constant(axis: Any, level: float) -> Any:
    return level + 0 * axis


def twice_constant(axis: Any, one: float, other: float) -> Any:
    return one + other + 0 * axis


def errors_of(spread: Any) -> Any:
    """Of the level and the slope of a line through points with these standard deviations."""
    columns = np.stack([np.ones(len(AXIS)), AXIS]) / spread
    return np.sqrt(np.diagonal(np.linalg.inv(columns @ columns.T)))


def told(fit: fits.Fit) -> list[float]:
    return [fit.errors["level"], fit.errors["slope"]]


def test_errors_of_counts_are_by_fishers_information() -> None:
    counts = DRAWS.poisson(line(AXIS, 30.0, 5.0))
    fit = fits.fit_model(line, AXIS, counts, {"level": 20.0, "slope": 4.0}, counts=True)
    assert told(fit) == pytest.approx(errors_of(np.sqrt(fit.curve)), rel=1e-6)
    assert fit.residuals == pytest.approx(_fitting.deviance(counts.astype(float), fit.curve))
    assert fit.reduced == pytest.approx((fit.residuals**2).sum() / (_fitting.mean_deviance(fit.curve).sum() - 2))


def test_errors_of_points_with_known_and_with_unknown_errors() -> None:
    spread = np.linspace(0.5, 2.0, len(AXIS))
    data = line(AXIS, 3.0, -0.5) + DRAWS.normal(0, spread)
    known = fits.fit_model(line, AXIS, data, {"level": 1.0, "slope": 1.0}, errors=spread)
    weights = np.stack([np.ones(len(AXIS)), AXIS], axis=1) / spread[:, None]
    assert list(known.values.values()) == pytest.approx(np.linalg.lstsq(weights, data / spread, rcond=None)[0], rel=1e-6)
    assert told(known) == pytest.approx(errors_of(spread), rel=1e-6)
    assert known.reduced == pytest.approx((((data - known.curve) / spread) ** 2).sum() / 10)
    assert [known.lmfit.params[name].stderr for name in ("level", "slope")] == pytest.approx(told(known), rel=1e-3)  # of a line lmfit has the same
    least = fits.fit_model(line, AXIS[:3], data[:3], {"level": 1.0, "slope": 1.0}, errors=spread[:3])
    assert least.reduced == pytest.approx((((data[:3] - least.curve) / spread[:3]) ** 2).sum())
    alike = fits.fit_model(line, AXIS, data, {"level": 1.0, "slope": 1.0})
    scatter = np.sqrt(((data - alike.curve) ** 2).sum() / 10)
    assert told(alike) == pytest.approx(scatter * errors_of(np.ones(len(AXIS))), rel=1e-6) and alike.reduced == 1
    assert alike.residuals == pytest.approx((data - alike.curve) / scatter)


def test_errors_by_segments_are_what_each_of_them_moves() -> None:
    """Of a level the mean of points, which count by the scatter of segments with that of their neighbours."""
    parts = 5 + DRAWS.normal(0, np.linspace(1, 3, len(AXIS)), (6, len(AXIS)))
    fit = fits.fit_model(constant, AXIS, parts.mean(axis=0), {"level": 4.0}, segments=parts)
    squares = parts.var(axis=0, ddof=1) / 6
    scale = np.array([squares[max(at - 4, 0) : at + 5].mean() for at in range(len(AXIS))])
    levels = parts @ (1 / scale) / (1 / scale).sum()
    assert fit.values["level"] == pytest.approx(levels.mean(), rel=1e-6)
    assert fit.errors["level"] == pytest.approx(levels.std(ddof=1) / np.sqrt(6), rel=1e-6)
    parts[0, 2] = np.nan  # a point that a segment lacks isn't fitted, and doesn't count for its neighbours
    found = _fitting.errors_of_cells(parts.mean(axis=0), None, parts)
    for at in (1, 3):
        assert found[at] == pytest.approx(np.sqrt(np.delete(squares[: at + 5], 2).mean()))
    assert np.isnan(found[2])


def test_parameters_that_nothing_tells_apart_have_no_errors() -> None:
    fit = fits.fit_model(twice_constant, AXIS, np.arange(12.0), {"one": 1.0, "other": 2.0}, errors=np.ones(12))
    assert all(np.isnan(error) for error in fit.errors.values()) and fit.values["one"] + fit.values["other"] == pytest.approx(5.5)


def test_slopes_are_the_derivatives_of_the_model() -> None:
    """By steps that go with a parameter, and by those of the size that matters where it is 0."""
    axis = np.array([1.0, 500.0, 1000.0])
    problem = _fitting.Problem(axis, axis, lambda at, now: np.asarray(now["height"] * np.exp(now["rate"] * at)), _fitting.normal(axis, axis), None)
    for rate, least in ((-2e-3, None), (2e-3, 0.0), (0.0, 0.01)):
        values = {"height": 3.0, "rate": rate}
        assert _fitting._slope(problem, values, "rate", least) == pytest.approx(3 * axis * np.exp(rate * axis), rel=1e-6)
        assert _fitting._slope(problem, values, "height", least) == pytest.approx(np.exp(rate * axis), rel=1e-9)


def test_a_parameter_near_its_bound_has_no_error() -> None:
    """Within a tenth of the error that it would have, here 0.5; the other's is as if it were held."""
    for bounds, free in (((2.0, 9.0), True), ((2.94, 9.0), True), ((2.96, 9.0), False), ((0.0, 3.06), True), ((0.0, 3.04), False)):
        fit = fits.fit_model(constant, AXIS[:4], np.full(4, 3.0), {"level": 2.5}, errors=np.ones(4), bounds={"level": bounds})
        assert (fit.errors["level"] == pytest.approx(0.5)) if free else np.isnan(fit.errors["level"])
    held = fits.fit_model(line, AXIS, -AXIS, {"level": 1.0, "slope": -1.0}, errors=np.ones(12), bounds={"level": (0.0, 9.0)})
    assert np.isnan(held.errors["level"]) and held.errors["slope"] == pytest.approx(1 / np.linalg.norm(AXIS), rel=1e-6)


def test_fits_together_have_the_error_of_all_points() -> None:
    spreads = [np.full(12, one) for one in (0.5, 2.0, 1.0)]
    models = [fits.fit_model(line, AXIS, line(AXIS, 2.0, 1.0) + DRAWS.normal(0, one), {"level": 1.0, "slope": 1.0}, errors=one) for one in spreads]
    found = fits.fit_together(models, ["slope"])
    columns = np.zeros((4, 36))
    for at in range(3):
        columns[at, 12 * at : 12 * at + 12] = 1
    columns[3] = np.tile(AXIS, 3)
    columns /= np.concatenate(spreads)
    data = np.concatenate([fit.data for fit in models]) / np.concatenate(spreads)
    best = np.linalg.lstsq(columns.T, data, rcond=None)[0]
    assert [*(fit.values["level"] for fit in found), found[0].values["slope"]] == pytest.approx(best, rel=1e-5)
    errors = np.sqrt(np.diagonal(np.linalg.inv(columns @ columns.T)))
    assert [*(fit.errors["level"] for fit in found), found[2].errors["slope"]] == pytest.approx(errors, rel=1e-6)
    assert np.concatenate([fit.residuals for fit in found]) == pytest.approx(data - best @ columns, abs=1e-5)


def test_fits_together_count_what_their_segments_do_together() -> None:
    """A level of two curves whose segments go up and down together; curves with other segments, or without, don't go with them."""
    shape, together = (6, len(AXIS)), DRAWS.normal(0, 1, (6, 1))
    parts = [5 + DRAWS.normal(0, spread, shape) + together for spread in (0.5, 2.0)]

    def fitted(parts: Any) -> fits.Fit:
        return fits.fit_model(constant, AXIS, parts.mean(axis=0), {"level": 4.0}, segments=parts)

    found = fits.fit_together(map(fitted, parts), ["level"])
    weights = np.concatenate([1 / _fitting.errors_of_cells(one[0], None, one) ** 2 for one in parts])
    levels = np.concatenate(parts, axis=1) @ weights / weights.sum()
    assert found[0].values["level"] == pytest.approx(levels.mean(), rel=1e-6)
    assert found[1].errors["level"] == pytest.approx(levels.std(ddof=1) / np.sqrt(6), rel=1e-6)
    alone = fits.fit_model(constant, AXIS, parts[0][0], {"level": 4.0}, errors=np.ones(len(AXIS)))
    alike = fits.fit_model(constant, AXIS, parts[0][0], {"level": 4.0})
    for other, said in ((fitted(parts[0][:5]), "as many segments"), (alone, "as many segments"), (alike, "as many segments|errors of all")):
        with pytest.raises(ValueError, match=said):
            fits.fit_together([fitted(parts[0]), other], ["level"])
    with pytest.raises(ValueError, match="errors of all curves, or of none"):
        fits.fit_together([alone, alike], ["level"])


def test_autocorrelations_are_means_of_products() -> None:
    fit = fits.fit_model(line, AXIS, DRAWS.normal(0, 1, 12), {"level": 0.1, "slope": 0.1})
    left = fit.residuals
    each = [np.mean(left[: 12 - k] * left[k:]) / np.mean(left**2) for k in range(6)]
    assert fit.autocorrelation == pytest.approx(each) and fit.autocorrelation[0] == 1


# Laws of counts.


def test_counts_over_what_is_expected_of_them() -> None:
    """Where three times the curve is expected, with twice the variance: 5 counts where 6 are."""
    law, curve = _fitting.poisson(np.array([5.0]), 3.0, 2.0), np.array([2.0])
    assert law.residuals(curve) == pytest.approx([-np.sqrt(2 * (6 - 5 + 5 * np.log(5 / 6)) / 2)])
    assert law.variances(curve) == pytest.approx([6 * 2 / 9]) and law.squares(curve) == pytest.approx(_fitting.mean_deviance(np.array([6.0])))


def test_counts_beside_others() -> None:
    """Where 4 more are expected, and were counted: as many as of 9 where 12 are."""
    law, curve = _fitting.poisson(np.array([5.0]), beside=4.0), np.array([8.0])
    assert law.residuals(curve) == pytest.approx([-np.sqrt(2 * (12 - 9 + 9 * np.log(9 / 12)))])
    assert law.variances(curve) == pytest.approx([12]) and law.squares(curve) == pytest.approx(_fitting.mean_deviance(np.array([12.0])))


@pytest.mark.parametrize("height", [0.2, 1.0, 4.0])
def test_counts_over_a_counted_background(height: float) -> None:
    """Their law has the mean and the scatter of counts and background, less the one than the other as may be, and its slope is
    (counts - signal - height * background) over the variance, so that in the mean it is 0."""
    draws, signal, level = np.random.default_rng(5), np.full(100_000, 3.0), np.full(100_000, 1.5)
    curve = signal + height * level
    counts, background = draws.poisson(curve) + 0.0, draws.poisson(level) + 0.0
    law, variance = _fitting.poisson_over(counts, background, level, height, curve), curve + height**2 * level
    assert law.variances(curve) == pytest.approx(variance)
    slope = (law.residuals(curve + 1e-4) ** 2 - law.residuals(curve - 1e-4) ** 2) / -4e-4
    assert slope == pytest.approx((counts - signal - height * background) / variance, abs=1e-5)
    assert np.mean(law.residuals(curve) ** 2) == pytest.approx(float(law.squares(curve)[0]), rel=0.05)


@pytest.mark.parametrize("height", [0.01, 0.5, 3.0])
def test_the_most_likely_background_has_no_slope(height: float) -> None:
    """Of counts n over s + height * b and of m over b the likelihood rises by n / (s / height + b) - height + m / b - 1, which is 0."""
    counts, background, signal = DRAWS.poisson(6, 50) + 0.0, DRAWS.poisson(4, 50) + 1.0, DRAWS.uniform(0, 20, 50)
    best = _fitting.best_level(counts, signal, height, background)
    assert height * counts / (signal + height * best) - height + background / best - 1 == pytest.approx(np.zeros(50), abs=1e-9)
    none = _fitting.best_level(np.array([0.0, 0.0, 8.0]), np.array([0.0, 5.0, 1.0]), height, np.zeros(3))
    assert none == pytest.approx([0, 0, max(8 / (1 + height) - 1 / height, 0)])


@pytest.mark.parametrize(("mean", "wide"), [(40.0, 1), (12.5, 1), (12.0, 3), (6.2, 3), (3.0, 9), (1.0, 25), (0.1, 25)])
def test_backgrounds_of_few_counts_are_those_of_their_neighbours(mean: float, wide: int) -> None:
    """With so many bins as have some 25 counts, at most twelve on either side; at the ends with those that are there."""
    level, side = np.arange(30.0), wide // 2
    assert _fitting.smoothed(level, mean) == pytest.approx([level[max(at - side, 0) : at + side + 1].mean() for at in range(30)])


def test_a_law_that_goes_by_what_is_found_settles() -> None:
    """At a level that is 6 less half of it, whose points scatter like its root; and at one beside other points with a mean of 6."""
    data, begin = np.array([3.0, 4.0, 8.0, 9.0]), lmfit.Parameters()
    begin.add("level", value=2.0)
    start = _fitting.Problem(AXIS[:4], data, lambda at, now: now["level"] + 0 * at, _fitting.normal(data, np.ones(4)), begin)

    def anew(now: Any, part: float = 0.5) -> Any:
        return replace(start, law=_fitting.normal(data - part * now["level"], np.full(4, np.sqrt(abs(now["level"])))), anew=anew)

    found = _fitting.settled(replace(start, anew=anew))
    assert [found.values["level"], found.errors["level"]] == pytest.approx([4, 1], rel=0.02)
    other = fits.fit_model(constant, AXIS[:4], data, {"level": 5.0}, errors=np.ones(4))
    level = (18 + np.sqrt(18**2 + 16 * 24)) / 8  # (6 - level / 2) / level + 6 is level * (1 / level + 1)
    both = fits.fit_together([found, other], ["level"])[0]
    assert [both.values["level"], both.errors["level"]] == pytest.approx([level, 1 / np.sqrt(4 / level + 4)], rel=0.01)
    with pytest.raises(ptulab.FitError, match="found no end: each of 30 rounds"):
        _fitting.settled(replace(start, anew=lambda now: anew(now, 2.0)))


def test_what_a_unit_scatters_is_no_error() -> None:
    begin = lmfit.Parameters()
    begin.add("level", value=2.0)
    problem = _fitting.Problem(AXIS[:4], AXIS[:4], lambda at, now: now["level"] + 0 * at, _fitting.normal(AXIS[:4], np.ones(4)), begin)
    errors = [_fitting.solved(replace(problem, units=units)).errors["level"] for units in ({}, {"level": 0.02}, {"level": 1.0})]
    assert errors[:2] == pytest.approx([0.5, np.sqrt(0.25 - 0.02 * 2.5**2)]) and np.isnan(errors[2])


def test_intervals_are_without_what_a_unit_scatters() -> None:
    """Of a line they are as wide as the errors, whatever part of the scatter is that of a unit."""
    begin = lmfit.Parameters()
    begin.add_many(("level", 20.0), ("slope", 4.0))
    data = line(AXIS, 30.0, 5.0) + DRAWS.normal(0, 1, len(AXIS))
    problem = _fitting.Problem(AXIS, data, lambda at, now: np.asarray(line(at, **now)), _fitting.normal(data, np.ones(len(AXIS))), begin)
    plain, less = (_fitting.solved(replace(problem, units=units)) for units in ({}, {"level": 2e-4}))
    assert less.errors["level"] < 0.9 * plain.errors["level"] and less.errors["slope"] == plain.errors["slope"]
    for fit in (plain, less):
        for name, one in fit.intervals(sigmas=[1]).items():
            assert [at for _, at in one] == pytest.approx([fit.values[name] + sign * fit.errors[name] for sign in (-1, 0, 1)], abs=0.01 * fit.errors[name])


def test_g2_without_its_background() -> None:
    """(0.5 - 1) / 0.64 from 1, with the errors of g2 and of the signal, which is counted twice in its square."""
    value, error = without_background(0.5, 0.03, 0.8, 0.02)
    assert value == pytest.approx(1 - 0.5 / 0.64) and error == pytest.approx(np.hypot(0.03 / 0.64, 2 * (0.5 / 0.64) * 0.02 / 0.8))
    assert without_background(np.array([2.0]), np.array([0.0]), 1.0, 0.1)[1] == pytest.approx([0.2])
    assert without_background(0.5, 0.03, 0.8) == pytest.approx((value, 0.03 / 0.64))  # of a signal that is exact
    with pytest.raises(ValueError, match="a signal of 1.01"):
        without_background(0.5, 0.03, 1.01)


def test_what_no_fit_begins_with_is_refused() -> None:
    three = np.array([[1.0, 2.0], [2.0, 2.5], [1.5, 2.0], [np.nan, np.nan]])
    assert _fitting.parts_of(three).tolist() == three[:3].tolist()
    with pytest.raises(ValueError, match="errors by 2 segments"):
        _fitting.parts_of(three[1:])
    with pytest.raises(ptulab.FitError, match="2 points for 2 parameters"):
        fits.fit_model(line, AXIS[:2], AXIS[:2], {"level": 1.0, "slope": 1.0})
    with pytest.raises(ptulab.FitError, match="12 points for 0 parameters"):
        fits.fit_model(line, AXIS, AXIS, {}, fixed={"level": 1.0, "slope": 1.0})
