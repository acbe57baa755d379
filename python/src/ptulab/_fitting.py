"""What all fits share: how data scatter, how a fit is steered, its errors, and fits of several curves together."""

import copy
import inspect
import math
from collections.abc import Callable, Iterable, Mapping, Sequence
from dataclasses import dataclass, field, replace
from typing import Any

import numpy as np
from numpy.typing import NDArray

from .errors import FitError
from ._optional import want
from ._values import Compared
from ._xarrays import Axis, labelled

Numbers = NDArray[np.float64]
Model = Callable[[Numbers, Mapping[str, float]], Numbers]  # of an axis and of parameters by their names
Values = Mapping[str, float] | None
Bounds = Mapping[str, tuple[float, float]] | None
NO_NEARER = (6, 7, 8)  # of MINPACK's lmdif: the best fit is told as closely as numbers can tell it
ROUNDS = 30  # in which a law that goes by what is found must settle
AWAY = 1000.0  # errors that lie between 0 and the best fit where intervals are looked for, so that lmfit steps by errors


@dataclass(frozen=True)
class Law:
    """How data scatter around a curve: residuals in standard deviations, the variance of each point, and the square of a
    residual in the mean."""

    residuals: Callable[[Numbers], Numbers]
    variances: Callable[[Numbers], Numbers]
    squares: Callable[[Numbers], Numbers]


def poisson(counts: Numbers, scale: Numbers | float = 1.0, doubled: Numbers | float = 1.0, beside: Numbers | float = 0.0) -> Law:
    """That of counts where ``scale`` times the curve is expected, which scatter like those of Poisson's law with so many ``beside``
    them, in variances that are ``doubled``."""

    def expected(curve: Numbers) -> Numbers:
        return np.maximum(curve * scale + beside, 1e-12)

    return Law(
        lambda curve: np.asarray(deviance(counts + beside, expected(curve)) / np.sqrt(doubled)),
        lambda curve: np.asarray(expected(curve) * doubled / np.square(scale)),
        lambda curve: mean_deviance(expected(curve)),
    )


def poisson_over(counts: Numbers, background: Numbers, level: Numbers, height: float, curve: Numbers) -> Law:
    """That of counts over ``height`` times what a ``background`` is, which was counted itself, where about ``level`` is expected of it and
    ``curve`` of the counts.

    The scatter of the background is taken off the counts, which are then right in the mean, however few, and scatter as much as those
    of Poisson's law with height^2 * level beside them (Yavuz and Fessler, Medical Image Analysis 2, 369, 1998): the fit is
    by quasi-likelihood (Wedderburn, Biometrika 61, 439, 1974), of which no level is a parameter that biases the others.
    """
    own, more = counts - height * (background - level), height**2 * level
    beside = np.maximum(more, -own)  # in the place of less than no counts
    law = poisson(own, doubled=(curve + more) / np.maximum(curve + beside, 1e-12), beside=beside)

    def squares(curve: Numbers) -> Numbers:  # with what the third moment, of more to the one side, adds to them
        both = np.maximum(curve + more, 1e-12)
        third: Numbers = more * (1 + height) / (3 * both * (1 + both))
        return mean_deviance(both) + third

    return replace(law, squares=squares)


def best_level(counts: Numbers, signal: Numbers, height: float, background: Numbers) -> Numbers:
    """The most likely b in each bin where ``counts`` are of ``signal`` + ``height`` * b, and those of a ``background`` of b:
    shape of them (Wachter, Leach and Kellogg, Astrophysical Journal 230, 274, 1979)."""
    r, s = max(height, 1e-12), np.maximum(signal, 0.0)
    linear = (1 + r) * s - r * (counts + background)
    root = np.sqrt(linear**2 + 4 * r * (1 + r) * background * s)
    above = (root - linear) / (2 * r * (1 + r))  # of the two forms that which subtracts no like numbers
    below = 2 * background * s / np.maximum(root + linear, 1e-300)
    return np.asarray(np.where(linear > 0, below, above))


def smoothed(level: Numbers, mean: float) -> Numbers:
    """The same in the mean with neighbours, where bins have few counts: with so many as have some 25 of so many in the mean, at most
    twelve on either side."""
    near = np.ones(min(2 * int(12 / max(mean, 1.0)) + 1, len(level)))
    sums, cells = (np.convolve(one, near, "same") for one in (level, np.ones(len(level))))
    return np.asarray(sums / cells)


def normal(values: Numbers, errors: Numbers) -> Law:
    return Law(lambda curve: np.asarray((values - curve) / errors), lambda curve: errors**2, np.ones_like)


@dataclass(frozen=True)
class Problem:
    """What is fitted where, by which model, how it scatters, and lmfit's parameters as the fit begins.

    ``parts``: the curves of segments, shape (segments, points), whose scatter tells errors; ``scaled``: whether the
    scatter of the points tells them. ``anew``: the same problem of parameters that were found, where the law goes by these.
    ``units``: of parameters whose unit was measured, its relative variance, which the slopes have and the parameter doesn't.
    """

    axis: Numbers
    data: Numbers
    model: Model
    law: Law
    begin: Any
    parts: Numbers | None = None
    scaled: bool = False
    anew: "Callable[[Mapping[str, float]], Problem] | None" = None
    units: Mapping[str, float] = field(default_factory=dict)

    def curve(self, values: Mapping[str, float]) -> Numbers:
        return self.model(self.axis, values)

    def residuals(self, values: Mapping[str, float]) -> Numbers:
        return self.law.residuals(self.curve(values))

    def left(self, parameters: Any) -> Numbers:
        return self.residuals(parameters.valuesdict())


@dataclass(frozen=True, eq=False)
class Fit(Compared):
    """What a fit found.

    - ``values`` and ``errors``: of each parameter by its name, in the unit of the axis that was given; an error is nan
      where the fit doesn't tell it, of a parameter that was held, and of one that ended on its bound.
    - ``axis``, ``data``, ``curve``: shape (points,), what was fitted where, and the best fit there.
    - ``residuals``: shape (points,), in standard deviations, of counts the roots of their deviances; ``reduced``: the sum
      of their squares over what it is in the mean if the model is right, so about 1 for a good fit, also where bins have
      few counts. nan where no more is left to expect than there are parameters.
    - ``lmfit``: lmfit's own result. Its errors are by the curvature of the residuals, and differ for few counts.
    """

    values: Mapping[str, float]
    errors: Mapping[str, float]
    axis: Numbers
    data: Numbers
    curve: Numbers
    residuals: Numbers
    reduced: float
    lmfit: Any = field(repr=False, compare=False)
    problem: Problem = field(repr=False, compare=False)
    whole: "Fit | None" = field(default=None, repr=False, compare=False)  # of fits made together, that of all points

    def to_xarray(self) -> Any:
        """An ``xarray.Dataset`` of ``data``, ``curve`` and ``residuals`` over ``axis``, in the unit that was given. Raises
        ``MissingLibraryError`` without xarray."""
        arrays = {"data": self.data, "curve": self.curve, "residuals": self.residuals}
        return labelled(arrays, [Axis("axis", self.axis, None, counted="")], {}, {"reduced": self.reduced})

    def to_pandas(self) -> Any:
        """The parameters as a ``pandas.DataFrame``: ``name``, ``value``, ``error``, whether it is ``free``, and its bounds, ``least`` and
        ``most``. Raises ``MissingLibraryError`` without pandas."""
        lines = [(name, one.value, one.stderr, one.vary, one.min, one.max) for name, one in self.parameters.items()]
        return want("pandas", "parameters as a list").DataFrame(lines, columns=["name", "value", "error", "free", "least", "most"])

    @property
    def parameters(self) -> Any:
        """lmfit's ``Parameters``, with the values and the errors that are told here."""
        found = copy.deepcopy(self.problem.begin)
        for name, one in found.items():
            one.value, one.stderr = self.values[name], self.errors[name]
        return found

    @property
    def model(self) -> Any:
        """The model as lmfit's ``Model`` of ``axis``: ``fit.model.eval(fit.parameters, axis=..)``. That of a reconvolution
        is of the bins of its pulse, whatever the axis is."""

        def curve(axis: Numbers, **now: float) -> Numbers:
            return self.problem.model(np.asarray(axis, dtype=np.float64), now)

        each = [inspect.Parameter(name, inspect.Parameter.POSITIONAL_OR_KEYWORD) for name in ("axis", *self.values)]
        setattr(curve, "__signature__", inspect.Signature(each))
        return want("lmfit", "fits").Model(curve)

    @property
    def autocorrelation(self) -> Numbers:
        """How like the residuals are to those k points later, k = 0, 1, ..: shape (points // 2,), 1 at 0, about 0 beyond.

        The mean of products of residuals over the mean of their squares; by chance it is of the size 1 / sqrt(points), and
        waves show what the model lacks (Grinvald and Steinberg, Analytical Biochemistry 59, 583, 1974).
        """
        left, many = self.residuals, len(self.residuals)
        sums = np.correlate(left, left, "full")[many - 1 : many - 1 + many // 2]
        return np.asarray(sums / (many - np.arange(many // 2)) / max(float((left**2).mean()), 1e-300))

    def intervals(self, *names: str, sigmas: Sequence[float] = (1, 2)) -> dict[str, list[tuple[float, float]]]:
        """Confidence intervals of parameters, by default of all that are free, by ``lmfit.conf_interval``.

        Of each the probabilities within, from those of the greatest of ``sigmas`` below the best fit, over 0 at it, to the
        greatest above, and the values there: where the sum of squares of the residuals, with all others fitted anew, is so
        much greater as its chi-square law has it (Wilks, Annals of Mathematical Statistics 9, 60, 1938; no F-test, since
        the scatter is known). Points are taken as independent, also those of segments. A side that a bound cuts is
        infinite. Of fits made together the names are those of ``lmfit``. Raises ``FitError`` for a parameter without an
        error, and where fewer than two are free.
        """
        if self.whole is not None:
            return self.whole.intervals(*names, sigmas=sigmas)
        lmfit, stats = want("lmfit", "intervals"), want("scipy.stats", "intervals")
        free = [name for name, error in self.errors.items() if error > 0]
        if len(free) < 2 or not set(names) <= set(free):
            raise FitError(f"no intervals of {', '.join(names) or 'all'}: errors are known of {', '.join(free) or 'none'}")
        offset = {name: self.values[name] - AWAY * self.errors[name] for name in free}
        result = copy.copy(self.lmfit)
        result.params = _in_errors(self.parameters, self.errors, offset)

        def left(now: Any) -> Numbers:
            back = {name: offset[name] + self.errors[name] * one.value if name in offset else one.value for name, one in now.items()}
            return self.problem.residuals(back)

        def within(best: Any, other: Any) -> float:
            more = max(other.chisqr - best.chisqr, 0.0)
            return float(stats.chi2.cdf(more / (self.lmfit.redchi if self.problem.scaled else 1.0), best.nvarys - other.nvarys))

        minimizer = lmfit.Minimizer(left, result.params, scale_covar=False)
        found = lmfit.conf_interval(minimizer, result, list(names) or free, list(sigmas), prob_func=within)
        return {name: [(p, self._place(name, at - AWAY)) for p, at in one] for name, one in found.items()}

    def _place(self, name: str, errors: float) -> float:
        """So many errors from the best fit, less what the unit of the parameter scatters, which is in the squares."""
        best, error = self.values[name], self.errors[name]
        return best + errors * error * error / math.hypot(error, math.sqrt(self.problem.units.get(name, 0.0)) * best)


def _in_errors(parameters: Any, errors: Mapping[str, float], offset: Mapping[str, float]) -> Any:
    """The same parameters in units of their errors, with the best fit at ``AWAY``: lmfit's first step is an error then."""
    for name, start in offset.items():
        one, error = parameters[name], errors[name]
        least, most = (one.min - start) / error, (one.max - start) / error
        one.set(min=-np.inf, max=np.inf)
        one.set(value=AWAY, min=least, max=most)
        one.stderr = 1.0
    return parameters


def steered(begin: Any, fixed: Values, start: Values, bounds: Bounds, optional: Mapping[str, Mapping[str, float]] | None = None) -> Any:
    """Parameters as a fit begins, with those that are held, that begin elsewhere and that have other bounds.

    One that is held by default is free where ``start`` or ``bounds`` names it. ``optional``: those that are there only where
    they are named. Raises ``ValueError`` for a name that isn't there, one that is both held and free, bounds that hold
    nothing, and a start outside of them.
    """
    held, begun, within, more = dict(fixed or {}), dict(start or {}), dict(bounds or {}), dict(optional or {})
    named = (*held, *begun, *within)
    unknown = [name for name in named if name not in begin and name not in more]
    if unknown or set(held) & (set(begun) | set(within)):
        raise ValueError(f"parameters are {', '.join((*begin, *more))}: {', '.join(unknown) or 'none is held and free'}")
    for name in more.keys() & set(named):
        begin.add(name, **more[name])
    for name, (least, most) in within.items():
        if not least < most:
            raise ValueError(f"{name} between {least} and {most}")
        begin[name].set(value=min(max(begin[name].value, least), most), min=least, max=most, vary=True)
    for name, value in begun.items():
        if not begin[name].min <= value <= begin[name].max:
            raise ValueError(f"{name} begins at {value}, outside of {begin[name].min} to {begin[name].max}")
        begin[name].set(value=value, vary=True)
    for name, value in held.items():
        begin[name].set(value=value, min=-np.inf, max=np.inf, vary=False)
    for one in begin.values():
        if one.vary and not one.min < one.value < one.max:  # a fit that begins on a bound doesn't leave it
            away = 1e-3 * (one.max - one.min if np.isfinite(one.max - one.min) else abs(one.value) or 1.0)
            one.value += away if one.value <= one.min else -away
    return begin


def solved(problem: Problem) -> Fit:
    """The fit of a problem, by least squares of residuals in standard deviations."""
    lmfit = want("lmfit", "fits")
    free = sum(one.vary for one in problem.begin.values())
    if not 0 < free < len(problem.data):
        raise FitError(f"{len(problem.data)} points for {free} parameters")
    try:
        result = lmfit.minimize(problem.left, problem.begin, scale_covar=False)
    except ValueError as error:
        raise FitError(f"the fit failed: {error}") from error
    if not result.success and getattr(result, "ier", 0) not in NO_NEARER:
        raise FitError(f"the fit found no end: {result.message}")
    values = {name: float(one.value) for name, one in result.params.items()}
    curve, errors = problem.curve(values), _errors(problem, result.params)
    left = problem.residuals(values)
    expected = float(problem.law.squares(curve).sum()) - free
    reduced = float((left**2).sum()) / expected if expected > 0 else float("nan")
    if problem.scaled:
        scatter = math.sqrt(reduced)
        left, reduced, errors = left / scatter, 1.0, {name: error * scatter for name, error in errors.items()}
    return Fit(values, errors, problem.axis, problem.data, curve, left, reduced, result, problem)


def settled(problem: Problem) -> Fit:
    """The fit of a problem whose law goes by what is found: again until no parameter moves by more than a fiftieth of its error."""
    found = solved(problem)
    if problem.anew is None:
        return found
    for _ in range(ROUNDS):
        begin, last = steered(found.parameters, None, None, None), found.values
        found = solved(replace(problem.anew(last), begin=begin))
        if all(abs(found.values[name] - last[name]) < error / 50 for name, error in found.errors.items() if error > 0):
            return found
    raise FitError(f"the fit found no end: each of {ROUNDS} rounds moves it")


def fit_model(
    model: Callable[..., Numbers],
    axis: NDArray[Any],
    data: NDArray[Any],
    start: Mapping[str, float],
    *,
    errors: NDArray[Any] | None = None,
    counts: bool = False,
    segments: NDArray[Any] | None = None,
    span: tuple[float, float] = (-math.inf, math.inf),
    fixed: Values = None,
    bounds: Bounds = None,
) -> Fit:
    """A fit of a model of one's own: ``model(axis, **parameters)``, as a function or an ``lmfit.Model`` of one axis.

    ``axis``, ``data``: shape (points,). ``start``: where each parameter begins, but what ``fixed`` holds. ``counts``: whether
    the data are counts by Poisson's law; else they have ``errors``, or those by the scatter of ``segments``, shape
    (segments, points), as of ``fit_fcs``, or, without both, all count alike and the scatter of the points tells errors.
    ``span``: from where on and before where points are fitted, by the axis. Points that are nan or have no error are left out. Raises ``FitError``, and ``ValueError`` for errors told twice.
    """
    call = getattr(model, "func", model)
    axis, data = np.asarray(axis, dtype=np.float64), np.asarray(data, dtype=np.float64)
    parts = None if segments is None else parts_of(segments)
    if sum((errors is not None, counts, parts is not None)) > 1:
        raise ValueError("errors are told by errors, by counts or by segments")
    scale = np.sqrt(np.maximum(data, 1.0)) if counts else errors_of_cells(data, errors, parts)
    kept = np.isfinite(data) & np.isfinite(scale) & (scale > 0) & (axis >= span[0]) & (axis < span[1])
    data, scale = data[kept], scale[kept]
    begin = want("lmfit", "fits").Parameters()
    for name, value in {**start, **(fixed or {})}.items():
        begin.add(name, value=value, brute_step=abs(value))
    begin = steered(begin, fixed, None, bounds)
    law = poisson(data) if counts else normal(data, scale)
    shape: Model = lambda at, now: np.asarray(call(at, **now), dtype=np.float64)
    alike = errors is None and parts is None and not counts
    return solved(Problem(axis[kept], data, shape, law, begin, None if parts is None else parts[:, kept], alike))


def fit_together(
    fits: Iterable[Fit], shared: Iterable[str], *, fixed: Values = None, start: Values = None, bounds: Bounds = None
) -> list[Fit]:
    """The same fits made together, with one value of each ``shared`` parameter: a global fit (Knutson, Beechem and Brand,
    Chemical Physics Letters 102, 501, 1983). It begins where they ended.

    ``fixed``, ``start`` and ``bounds`` are of the parameter in each fit that has it. A parameter may be shared by some of the fits
    alone; it is held where the first fit that has it holds it. Errors by segments need as many of them in each curve, which
    are taken as of one measurement, and count what curves do together. Each ``Fit`` has its own points and parameters; ``lmfit``
    is that of all, where a parameter that isn't shared has the name ``NAME_of_N``, N from 1. Raises ``FitError``, and
    ``ValueError`` for a shared parameter that none has, and for unlike segments.
    """
    fits, shared = list(fits), set(shared)
    if not shared <= {name for fit in fits for name in fit.values}:
        raise ValueError(f"no fit has {', '.join(sorted(shared))}")
    names = [{name: name if name in shared else f"{name}_of_{n}" for name in fit.values} for n, fit in enumerate(fits, 1)]
    begin = want("lmfit", "fits").Parameters()
    for fit, by in zip(fits, names, strict=True):
        told: list[Any] = [{name: one for name, one in given.items() if name in fit.values} for given in (fixed or {}, start or {}, bounds or {})]
        for name, one in steered(fit.parameters, *told).items():
            if by[name] not in begin:
                begin.add(by[name], value=one.value, vary=one.vary, min=one.min, max=one.max, brute_step=one.brute_step)
    whole = settled(_joined([fit.problem for fit in fits], names, begin))
    ends = np.cumsum([len(fit.data) for fit in fits])[:-1]
    pieces = zip(fits, names, np.split(whole.curve, ends), np.split(whole.residuals, ends), strict=True)
    return [
        replace(
            fit,
            values={name: whole.values[by[name]] for name in fit.values},
            errors={name: whole.errors[by[name]] for name in fit.values},
            curve=curve,
            residuals=left,
            reduced=whole.reduced,
            lmfit=whole.lmfit,
            whole=whole,
        )
        for fit, by, curve, left in pieces
    ]


def _joined(problems: Sequence[Problem], names: Sequence[Mapping[str, str]], begin: Any) -> Problem:
    """One problem of several, whose parameters have these names in it."""
    ends = np.cumsum([len(one.data) for one in problems])[:-1]
    parts = [one.parts for one in problems if one.parts is not None]
    if parts and (len(parts) < len(problems) or len({len(one) for one in parts}) > 1):
        raise ValueError("fits together need as many segments in each curve")
    if len({one.scaled for one in problems}) > 1:
        raise ValueError("fits together need errors of all curves, or of none")

    def of_each(now: Mapping[str, float]) -> list[tuple[Problem, Mapping[str, float]]]:
        return [(one, {name: now[it] for name, it in by.items()}) for one, by in zip(problems, names, strict=True)]

    def anew(now: Mapping[str, float]) -> Problem:
        return _joined([one if one.anew is None else one.anew(own) for one, own in of_each(now)], names, begin)

    def each(what: str) -> Callable[[Numbers], Numbers]:
        calls = [getattr(one.law, what) for one in problems]
        return lambda curve: np.concatenate([call(part) for call, part in zip(calls, np.split(curve, ends), strict=True)])

    axis, data = (np.concatenate([getattr(one, what) for one in problems]) for what in ("axis", "data"))
    law = Law(each("residuals"), each("variances"), each("squares"))
    whole = np.concatenate(parts, axis=1) if parts else None
    model: Model = lambda _, now: np.concatenate([one.curve(own) for one, own in of_each(now)])
    goes_on = any(one.anew is not None for one in problems)
    units = {by[name]: part for one, by in zip(problems, names, strict=True) for name, part in one.units.items() if by[name] != name}
    return Problem(axis, data, model, law, begin, whole, problems[0].scaled, anew if goes_on else None, units)


def _errors(problem: Problem, parameters: Any) -> dict[str, float]:
    """The standard deviation of each parameter that is free, by Fisher's information or by what each segment moves it."""
    errors = dict.fromkeys(parameters, float("nan"))
    free, columns, sizes = _slopes(problem, parameters)
    if not free:
        return errors
    if problem.parts is not None:
        parts = problem.parts
        away = (parts - parts.mean(axis=0)) / np.sqrt(problem.law.variances(parts[0]))
        moved = np.linalg.lstsq(columns.T, away.T, rcond=None)[0] / sizes[:, None]
        found = np.sqrt((moved**2).sum(axis=1) / (len(parts) * (len(parts) - 1)))
        return errors | dict(zip(free, found.tolist(), strict=True))
    try:
        variances = np.diagonal(np.linalg.inv(columns @ columns.T)) / sizes**2
    except np.linalg.LinAlgError:
        return errors
    variances = variances - [problem.units.get(name, 0.0) * parameters[name].value ** 2 for name in free]
    return errors | {name: math.sqrt(one) if one > 0 else float("nan") for name, one in zip(free, variances, strict=True)}


def _slopes(problem: Problem, parameters: Any) -> tuple[list[str], Numbers, Numbers]:
    """The parameters that are free and not on their bound, the model's derivative by each in standard deviations of the
    points and over its norm, shape (parameters, points), and these norms."""
    values = {name: float(one.value) for name, one in parameters.items()}
    scale = np.sqrt(problem.law.variances(problem.curve(values)))
    slopes = {name: _slope(problem, values, name, one.brute_step) / scale for name, one in parameters.items() if one.vary}
    sizes = {name: float(np.linalg.norm(slope)) for name, slope in slopes.items()}
    free = [name for name, size in sizes.items() if not _on_bound(parameters[name], size)]
    columns = [slopes[name] / sizes[name] for name in free]
    return free, np.reshape(columns, (len(free), len(scale))), np.array([sizes[name] for name in free])


def _slope(problem: Problem, values: Mapping[str, float], name: str, least: float | None) -> Numbers:
    """The derivative of a model by one parameter, by a step of a ten-thousandth of it or of the size that matters."""
    step = 1e-4 * (max(abs(values[name]), least or 0.0) or 1.0)
    above, below = (problem.curve({**values, name: values[name] + one}) for one in (step, -step))
    return (above - below) / (2 * step)


def _on_bound(parameter: Any, slope: float) -> bool:
    """Whether a parameter is as good as on its bound: nearer than a tenth of the error that it would have alone."""
    return not slope * min(parameter.value - parameter.min, parameter.max - parameter.value) > 0.1


def deviance(counts: Numbers, expected: Numbers) -> Numbers:
    """The root of 2 (m - n + n ln(n / m)), with the sign of n - m, of n ``counts`` where m are ``expected``."""
    likely = np.maximum(expected, 1e-12)
    some = np.where(counts > 0, counts, 1.0)
    x = np.where(counts > 0, likely, 1.0) / some - 1
    y = np.minimum(np.maximum(x, -0.01), 0.01)  # clip is slower
    near = -y * np.sqrt(some * (1 - y * (2 / 3 - y * (1 / 2 - y * 2 / 5))))  # where the logarithm would lose digits
    far = -np.sign(x) * np.sqrt(2 * some * np.maximum(x - np.log1p(x), 0.0))
    return np.asarray(np.where(counts > 0, np.where(np.abs(x) < 0.01, near, far), -np.sqrt(2 * likely)))


def mean_deviance(expected: Numbers) -> Numbers:
    """The mean of 2 (m - n + n ln(n / m)) over the counts n of Poisson's law where m are ``expected``: shape of it.

    Far below 1 for a few counts in ten bins, at most 1.16 about 1.5 counts, and 1 + 1 / (6 m) + .. for many (McCullagh and
    Nelder, Generalized Linear Models, 1989, chapter 2).
    """
    likely = np.maximum(expected, 1e-12)
    few = np.minimum(likely, 30.0)
    chance, mean = np.exp(-few), np.zeros_like(few)
    for n in range(1, 120):
        chance = chance * few / n
        mean += 2 * chance * n * (math.log(n) - np.log(few))
    many: Numbers = 1 + 1 / (6 * likely) + 1 / (6 * likely**2)
    return np.where(likely < 30, mean, many)


NEAR = 4  # neighbours on either side with which the scatter of segments at a delay is taken together
LEAST = 3  # segments


def parts_of(segments: NDArray[Any]) -> Numbers:
    """The curves of segments that have a value. Raises ``ValueError`` for fewer than three."""
    parts = np.asarray(segments, dtype=np.float64)
    parts = parts[np.isfinite(parts).any(axis=1)]
    if len(parts) < LEAST:
        raise ValueError(f"errors by {len(parts)} segments")
    return parts


def errors_of_cells(values: Numbers, errors: NDArray[Any] | None, parts: Numbers | None) -> Numbers:
    """How points count: by what is given, by the scatter of segments with that of their neighbours, or alike."""
    if parts is None:
        return np.ones(len(values)) if errors is None else np.asarray(errors, dtype=np.float64)
    squares = parts.var(axis=0, ddof=1) / len(parts)
    known = np.isfinite(squares)
    near = np.ones(min(2 * NEAR + 1, len(squares)))
    sums, cells = (np.convolve(one, near, "same") for one in (np.where(known, squares, 0.0), known))
    scatter: Numbers = np.sqrt(sums / np.maximum(cells, 1.0))
    return np.where(known, scatter, np.nan)
