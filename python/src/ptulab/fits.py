"""Fits of decays and correlations by lmfit.

Decays are fitted by the likelihood of Poisson counts: the sum of 2 (m - n + n ln(n / m)) over the bins, of n counts
where m are expected, is made least (Laurence and Chromy, Nature Methods 7, 338, 2010), so that bins of few counts, and
of none, count as they should.

Errors are of one standard deviation, by the inverse of Fisher's information at the best fit: the sum over the points of
the products of the model's derivatives over the variance of the point, which is m of Poisson counts (Cowan, Statistical
Data Analysis, Oxford 1998, chapter 6). A parameter that ended on its bound, as a background of 0, is held for that.

Every fit is steered in one way: ``fixed={name: value}`` holds parameters, ``start={name: value}`` says where they begin, and
``bounds={name: (least, most)}`` between what they are; one that is held by default is free where ``start`` or ``bounds`` names
it. ``fit_together`` shares parameters between fits.
"""

import functools
import math
from collections.abc import Callable, Mapping
from dataclasses import replace
from itertools import combinations
from typing import Any, Literal

import numpy as np
from numpy.typing import NDArray

from .errors import FitError
from ._fitting import (
    Bounds, Fit, Model, Numbers, Problem, Values, best_level, errors_of_cells, fit_model, fit_together, normal, parts_of,
    poisson, poisson_over, settled, smoothed, solved, steered
)
from ._optional import want

__all__ = [
    "Fit",
    "fcs_model",
    "fit_fcs",
    "fit_model",
    "fit_reconvolution",
    "fit_tail",
    "fit_together",
    "mean_lifetime",
]

FEWEST = 0.5  # counts a bin of a measured background, unless it was measured five times as long; of less errors are too small
LEAST_PULSE = 0.01  # part of a pulse that must be in the span where scattered light is fitted
TRIED = 24  # lifetimes with which a fit of a decay may begin
SOME = 8  # decays of a pulse that are kept: two, and scattered light, as they were and as they are with one parameter changed


def _names(terms: int) -> list[tuple[str, str]]:
    if not 1 <= terms <= 4:
        raise ValueError(f"{terms} exponential terms")
    return [(f"amplitude_{n}", f"lifetime_{n}") for n in range(1, terms + 1)]


def _begin_decay(
    counts: Numbers, decay: Callable[[float], Numbers], others: Mapping[str, tuple[Numbers, float]], terms: int, length: float
) -> Any:
    """Where a fit of a decay begins: at the best lifetimes of a grid, over which amplitudes are linear.

    ``decay``: what an amplitude of 1 has in each bin, of a lifetime; ``others``: the same of what has none, by its name, and
    with how many it begins at least, since a fit hardly leaves 0; ``length``: of all bins.
    """
    names, grid = _names(terms), length * np.geomspace(2e-3, 2.0, TRIED)
    scale = np.sqrt(np.maximum(counts, 1.0))
    columns = np.stack([*(decay(float(one)) for one in grid), *(shape for shape, _ in others.values())]) / scale
    both, by = columns @ columns.T, columns @ (counts / scale)
    both[np.diag_indices(len(both))] *= 1 + 1e-9
    tries = np.array([(*one, *range(TRIED, len(columns))) for one in combinations(range(TRIED), terms)])
    heights = np.linalg.solve(both[tries[:, :, None], tries[:, None]], by[tries][:, :, None])[:, :, 0]
    less = (heights * by[tries]).sum(axis=1)  # so much less than without a decay are the squares
    best = int(np.argmax(less + np.where((heights[:, :terms] > 0).all(axis=1), less.max(), 0.0)))
    begin = want("lmfit", "fits").Parameters()
    for at, (size, time) in enumerate(names):
        begin.add(size, value=max(heights[best, at], 1e-3 * float(np.abs(heights[best, :terms]).max())), min=0)
        begin.add(time, value=grid[tries[best, at]], min=1e-4 * grid[0], max=100 * length)
    for at, (name, (_, least)) in enumerate(others.items(), terms):
        begin.add(name, value=max(heights[best, at], least), min=0, brute_step=least)
    return begin


def _good_counts(counts: Numbers, beside: NDArray[Any]) -> None:
    """Counts stand in one row, one beside each of these numbers, and none is less than 0."""
    if counts.ndim != 1 or counts.shape != beside.shape or np.any(counts < 0):
        raise ValueError(f"no counts of a decay: shape {counts.shape} beside {beside.shape}, the least {counts.min(initial=0):g}")


def fit_tail(
    counts: NDArray[Any],
    axis: NDArray[Any],
    span: float | tuple[float, float],
    *,
    terms: int = 1,
    background: NDArray[Any] | None = None,
    fixed: Values = None,
    start: Values = None,
    bounds: Bounds = None,
) -> Fit:
    """A fit of a decay's tail: the sum of amplitude_n * exp(-(t - t0) / lifetime_n), and a background.

    ``counts``: shape (bins,), a histogram; ``axis``: shape (bins,), where its bins begin, evenly spaced, in seconds or
    ticks. ``span``: t0, from which on bins are fitted, or t0 and the time before which they are; the pulse must be over by
    t0. Amplitudes and ``background`` are counts a bin, lifetimes in the unit of the axis. ``background``: shape (bins,), one
    that was measured, of any height: its mean is taken as 1. In whole numbers that aren't all alike it is counts, whose scatter
    adds to the errors; any other, as one that is flat, scaled or smoothed, is taken as exact. Over counts the fit is by the
    quasi-likelihood of the counts less so many times the background, by their mean and their variance (Wedderburn, Biometrika 61,
    439, 1974; ``residuals`` are of counts with that variance): a level of each bin as a parameter, as in the W statistic of X-ray
    astronomy, would make lifetimes too long and errors too small where bins have few counts. Raises ``FitError`` and ``ValueError`` where there are no such bins, or they have no counts, or one is less than 0, and where a
    background that matters has so few counts that errors would be too small.
    """
    axis, counts = np.asarray(axis, dtype=np.float64), np.asarray(counts, dtype=np.float64)
    _good_counts(counts, axis)
    first, last = span if isinstance(span, tuple) else (span, np.inf)
    inside = (axis >= first) & (axis < last)
    times, tail, level = axis[inside], counts[inside], _level(background, inside)[inside]
    if len(times) < 3 or not tail.sum() > 0:
        raise ValueError(f"a tail of {len(times)} bins and {tail.sum():g} counts")
    others = {"background": (level, max(float(np.median(tail[-max(len(tail) // 10, 1) :])), 0.1))}
    begin = _begin_decay(tail, lambda lifetime: np.asarray(np.exp((first - times) / lifetime)), others, terms, float(times[-1] - times[0]))

    def over(level: Numbers) -> Model:
        def model(at: Numbers, now: Mapping[str, float]) -> Numbers:
            decays = [now[size] * np.exp((first - at) / now[time]) for size, time in _names(terms)]
            return np.asarray(now["background"] * np.interp(at, times, level) + sum(decays))

        return model

    problem = Problem(times, tail, over(level), poisson(tail), steered(begin, fixed, start, bounds))
    return _solved(problem, over, background, inside)


def _solved(problem: Problem, over: Callable[[Numbers], Model], background: NDArray[Any] | None, inside: NDArray[np.bool_]) -> Fit:
    """The fit of a decay. ``over``: its model over a background; where that was counted, variances go by what is most likely of
    it in each bin, with its neighbours where that are few counts."""
    level = np.zeros(0) if background is None else np.asarray(background, dtype=np.float64)[inside]
    if background is None or np.any(level % 1) or np.all(level == level[0]):
        return solved(problem)
    mean, own_mean, units = float(np.mean(background)), float(level.mean()), {"background": 1 / float(np.sum(background))}

    def anew(now: Mapping[str, float]) -> Problem:
        signal, height = problem.curve({**now, "background": 0.0}), now["background"] / mean
        best = smoothed(best_level(problem.data, signal, height, level), own_mean)
        law = poisson_over(problem.data, level, best, height, signal + height * best)
        return replace(problem, model=over(best / mean), law=law, anew=anew, units=units)

    found = settled(replace(problem, anew=anew))
    if found.values["background"] / mean > 0.2 and own_mean < FEWEST:
        raise FitError(
            f"a measured background of {own_mean:.2g} counts a bin tells too little, as there must be {FEWEST}: "
            "measure it longer, take wider bins, or give its curve, if that is known, in numbers that aren't whole"
        )
    return found


def _level(background: NDArray[Any] | None, inside: NDArray[np.bool_]) -> Numbers:
    """What a background of 1 count a bin has in each: that of a measured one, or the same in all. ``inside``: those that are fitted."""
    if background is None:
        return np.ones(len(inside))
    level = np.asarray(background, dtype=np.float64)
    _good_counts(level, inside)
    if not level[inside].sum() > 0:
        raise ValueError("a measured background without counts in the bins that are fitted")
    return level / float(level.mean())


def decay_of_bins(delays: Numbers, lifetime: float, width: float, period: float | None = None) -> Numbers:
    """The part of an exponential decay that falls into a bin which begins so much later than that of its excitation: shape
    of ``delays``, of which some may be negative.

    An excitation anywhere in a bin, each place as likely, is followed by a photon in a bin that begins t later with the
    probability exp(-(t - width) / lifetime) * (1 - exp(-d))^2 / d for t of at least a width, where d = width / lifetime: the
    integral over both bins. For less the part of both that comes after the other is integrated. With ``period`` what
    comes of all earlier pulses is added, those of t + period, t + 2 * period ..; t is more than -2 periods then.
    """
    if period is None:
        return _of_one_pulse(delays, lifetime, width)
    rest = _of_one_pulse(delays + 2 * period, lifetime, width) / -math.expm1(-period / lifetime)
    return _of_one_pulse(delays, lifetime, width) + _of_one_pulse(delays + period, lifetime, width) + rest


def _of_one_pulse(delays: Numbers, lifetime: float, width: float) -> Numbers:
    d, t = width / lifetime, delays / lifetime
    ahead, near, behind = np.minimum(np.maximum(t, -d), 0.0) + d, np.minimum(np.maximum(t, 0.0), d), np.maximum(t - d, 0.0)  # clip is slower
    late = np.exp(-behind) * math.expm1(-d) ** 2
    own = d - near + np.exp(-near - d) + 1 - 2 * np.exp(-near)
    return np.asarray(np.where(t >= d, late, np.where(t >= 0, own, ahead + np.expm1(-ahead))) / d)


def fit_reconvolution(
    counts: NDArray[Any],
    pulse: NDArray[Any],
    width: float,
    *,
    period: float | None = None,
    terms: int = 1,
    scatter: bool = False,
    background: NDArray[Any] | None = None,
    span: tuple[float, float] = (-math.inf, math.inf),
    fixed: Values = None,
    start: Values = None,
    bounds: Bounds = None,
) -> Fit:
    """A fit of a whole decay with the measured pulse: the pulse, shifted, convolved with a sum of decays (O'Connor and Phillips,
    Time-correlated Single Photon Counting, Academic Press 1984):

        background + scatter * P(t) + sum of amplitude_n * (P * D_n)(t),    D_n(t) = exp(-t / lifetime_n) / lifetime_n for t > 0,

    where P is the pulse, ``shift`` later and with a sum of 1.

    ``counts``: shape (bins,), a histogram of the sample, with equal bins of ``width``, in seconds or ticks; ``pulse``: that of
    the instrument's response, shape (bins,), or (bins * n,) where its bins are n times finer. Its background must have
    been taken off. ``period``: of the excitation, in the same unit, where its decay runs over into the next. It need be no
    whole number of bins: the last bin then has what comes before the period ends. ``span``: from when on and before when
    bins are fitted, by where they begin; the decay is that of the whole pulse all the same.

    All is integrated over the bins, with each place in a bin of the pulse as likely. So bins of the pulse must be
    narrower than the pulse, at most its standard deviation, or a sixteenth of the lifetime. Wider ones make the pulse
    wider than it is and the lifetime too short (by 2 % where they have twice the standard deviation and a quarter of the
    lifetime), which ``reduced`` shows. Where the decay has such bins, as in a cube, give the pulse in finer ones.

    ``amplitude_n`` are photons, ``lifetime_n`` and ``shift`` are in the unit of ``width`` (any part of a bin), ``background`` is
    counts a bin, and with ``scatter`` there are photons of that name, of scattered light, which come with the shifted pulse.
    ``background``: shape (bins,), as of ``fit_tail``. Raises ``FitError`` as that does and where ``scatter`` is to be fitted in a
    ``span`` with less than a hundredth of the pulse, by the shift with which it begins, and ``ValueError`` where the shapes don't go
    together, there are no counts, or one is less than 0, or the last bin begins behind the period.
    """
    counts, pulse = np.asarray(counts, dtype=np.float64), np.asarray(pulse, dtype=np.float64)
    bins = len(counts) if counts.ndim == 1 and pulse.size and pulse.size % max(counts.size, 1) == 0 else 0
    finer = max(pulse.size // max(bins, 1), 1)
    _good_counts(counts, np.zeros(bins))
    _good_counts(pulse, np.zeros(bins * finer))
    if not counts.sum() > 0 or not pulse.sum() > 0:
        raise ValueError("a decay and a pulse need counts, in as many bins")
    if period is not None and not (bins - 1) * width < period:
        raise ValueError(f"{bins} bins of {width} are longer than a period of {period}: leave out those behind it")
    axis = np.arange(bins) * width
    shape, inside = Convolved(pulse, finer, width, period), (axis >= span[0]) & (axis < span[1])
    level = shape.parts if background is None else _level(background, inside)
    others, late = {"background": (level[inside], max(float(counts.min()), 0.1))}, {**(start or {}), **(fixed or {})}.get("shift", 0.0)
    if scatter:
        others["scatter"] = _scattered(shape, late, inside, "scatter" in (fixed or {})), 0.01 * float(counts.sum())
    begin = _begin_decay(counts[inside], lambda lifetime: shape.decay(lifetime, late)[inside], others, terms, bins * width)
    begin.add("shift", value=0.0, min=-bins * width / 4, max=bins * width / 4, brute_step=width)

    def photons(now: Mapping[str, float]) -> Numbers:
        terms_of = [now[size] * shape.decay(now[time], now["shift"]) for size, time in _names(terms)]
        if now.get("scatter"):
            terms_of.append(now["scatter"] * shape.decay(1e-3 * shape.width, now["shift"]))
        return np.asarray(sum(terms_of, np.zeros(bins))[inside])

    def over(level: Numbers) -> Model:
        return lambda _, now: np.asarray(now["background"] * level + photons(now))

    begin = steered(begin, fixed, start, bounds)
    problem = Problem(axis[inside], counts[inside], over(level[inside]), poisson(counts[inside]), begin)
    return _solved(problem, over, background, inside)


def _scattered(shape: "Convolved", shift: float, inside: NDArray[np.bool_], held: bool) -> Numbers:
    """What part of scattered light each bin that is fitted has. Raises ``FitError`` where it is so little that it isn't told."""
    found = shape.decay(1e-3 * shape.width, shift)[inside]
    if not held and not float(found.sum()) > LEAST_PULSE:
        raise FitError(
            f"the span has {max(float(found.sum()), 0.0):.2g} of the pulse, which tells too little of scattered light: "
            "let it begin before the pulse is over, or leave scatter out"
        )
    return found


class Convolved:
    """A pulse, with its bins, to be convolved with decays."""

    def __init__(self, pulse: Numbers, finer: int, width: float, period: float | None) -> None:
        self.finer, self.width, self.period = finer, width / finer, period
        self.delays = np.arange(1 - len(pulse), len(pulse)) * self.width
        self.size = 1 << len(self.delays).bit_length()  # so that what comes round the circle isn't kept
        self.pulse = np.fft.rfft(pulse / pulse.sum(), self.size)
        bins = len(pulse) // finer
        self.parts = np.ones(bins)  # of each bin that lies before the period ends
        if period is not None:
            self.parts[-1] = min(period / width - (bins - 1), 1.0)
        self.decay = functools.lru_cache(SOME)(self._decay)  # as a fit changes one parameter after the other

    def _decay(self, lifetime: float, shift: float) -> Numbers:
        """What part of the photons of a decay each bin has."""
        late = decay_of_bins(self.delays - shift, lifetime, self.width, self.period)
        both = np.fft.irfft(self.pulse * np.fft.rfft(late, self.size), self.size)
        bins = np.maximum(both[len(late) // 2 : len(late)], 0.0).reshape(-1, self.finer).sum(axis=1)
        if self.parts[-1] < 1:
            bins[-1] = max(1 - float(bins[:-1].sum()), 0.0)
        bins.setflags(write=False)
        return np.asarray(bins)


def mean_lifetime(fit: Fit, *, by: Literal["amplitude", "intensity"] = "amplitude") -> float:
    """The mean of the lifetimes of a fit: by the amplitudes of its exponentials, or by the photons that each has.

    With heights a of the exponentials and lifetimes t it is sum(a t) / sum(a), or sum(a t^2) / sum(a t), in the unit of the
    lifetimes (Lakowicz, Principles of Fluorescence Spectroscopy, Springer 2006, chapter 4). In ``fit_tail`` an amplitude is the height at the
    start, in ``fit_reconvolution`` already the photons. Raises ``ValueError`` for another mean, and for a fit without lifetimes.
    """
    if by not in ("amplitude", "intensity") or "lifetime_1" not in fit.values:
        raise ValueError(f"a mean by {by} of lifetimes, by amplitude or by intensity, of a fit of {', '.join(fit.values)}")
    names = [name.removeprefix("amplitude_") for name in fit.values if name.startswith("amplitude_")]
    sizes = np.array([fit.values[f"amplitude_{name}"] for name in names])
    times = np.array([fit.values[f"lifetime_{name}"] for name in names])
    photons = sizes if "shift" in fit.values else sizes * times
    weights = photons if by == "intensity" else photons / times
    return float((weights * times).sum() / weights.sum())


def fcs_model(
    delays: Numbers,
    number: float,
    diffusion: float,
    *,
    structure: float | None = None,
    triplet: float = 0.0,
    triplet_time: float = 1.0,
    baseline: float = 1.0,
    anomaly: float = 1.0,
    flow_rate: float = 0.0,
    part_2: float = 0.0,
    diffusion_2: float = 1.0,
) -> Numbers:
    """A correlation of diffusing molecules: shape of ``delays``.

    baseline + 1 / number * (1 + triplet / (1 - triplet) * exp(-t / triplet_time)) * ((1 - part_2) * M(diffusion) + part_2 *
    M(diffusion_2)), where with x = (t / diffusion)^anomaly

        M = exp(-(t * flow_rate)^2 / (1 + x)) / (1 + x),

    in two dimensions; in three, with ``structure``, the ratio of the long to the short radius of the volume, also over
    sqrt(1 + x / structure^2). ``number``: molecules in the volume; ``diffusion`` and ``triplet_time``: in the unit of ``delays``;
    ``flow_rate``: the speed across the volume over its short radius; ``triplet``: the part of molecules in the triplet state;
    ``anomaly``: below 1 of subdiffusion; ``part_2``: the part of the amplitude that is of a second species, which is that of
    its molecules where both are as bright.

    After Magde, Elson and Webb (Biopolymers 13, 29, 1974; with flow, 17, 361, 1978), Widengren, Mets and Rigler (Journal of
    Physical Chemistry 99, 13368, 1995) and, of two species and of anomalous diffusion, Schwille, Korlach and Webb
    (Cytometry 36, 176, 1999).
    """

    def motion(time: float) -> Numbers:
        x = (delays / time) ** anomaly
        shape = np.exp(-np.square(delays * flow_rate) / (1 + x)) / (1 + x)
        return np.asarray(shape if structure is None else shape / np.sqrt(1 + x / structure**2))

    both = (1 - part_2) * motion(diffusion) + (part_2 * motion(diffusion_2) if part_2 else 0.0)
    dark = 1 + triplet / (1 - triplet) * np.exp(-delays / triplet_time)
    return np.asarray(baseline + dark * both / number)


def fit_fcs(
    delays: NDArray[Any],
    values: NDArray[Any],
    errors: NDArray[Any] | None = None,
    *,
    segments: NDArray[Any] | None = None,
    dimensions: Literal[2, 3] = 3,
    species: Literal[1, 2] = 1,
    triplet: bool = False,
    span: tuple[float, float] = (0.0, np.inf),
    fixed: Values = None,
    start: Values = None,
    bounds: Bounds = None,
) -> Fit:
    """A fit of a normalised correlation by ``fcs_model``.

    ``delays``, ``values``: shape (cells,). With ``segments``, the curves of which ``values`` are the mean, shape (segments,
    cells) as ``Curve.segments``, the errors of parameters are those of the mean of segments: by their scatter, and with all
    that their points do together. Points count by the scatter of segments too, taken with that of their neighbours, since of
    few segments that of one point says little. With three segments errors come out up to a tenth too small. Without
    segments, ``errors`` of shape (cells,) must be known well, and points be independent: as those of ten segments they tell
    errors of parameters that are a quarter too small. Without both all points count alike, and the errors of parameters are scaled by the scatter.

    Points that are nan, without an error, at no delay or outside of ``span`` are left out, and segments without a value.
    Parameters: ``number``, ``diffusion``, ``baseline``, with ``triplet`` also ``triplet`` and ``triplet_time``, with two
    ``species`` also ``part_2`` and ``diffusion_2``, the longer time. ``structure`` is held at 5, and ``anomaly``, at 1, and
    ``flow_rate``, at 0, are there where they are named: ``start={"anomaly": 0.8}`` frees one. Another model is fitted by ``fit_model``. Raises ``FitError``, and ``ValueError`` for other dimensions, fewer than three segments, and
    ``segments`` beside ``errors``.
    """
    if dimensions not in (2, 3) or species not in (1, 2):
        raise ValueError(f"a model of {dimensions} dimensions and {species} species")
    if segments is not None and errors is not None:
        raise ValueError("segments beside errors")
    delays, values = np.asarray(delays, dtype=np.float64), np.asarray(values, dtype=np.float64)
    parts = None if segments is None else parts_of(segments)
    scale = errors_of_cells(values, errors, parts)
    kept = np.isfinite(values) & np.isfinite(scale) & (scale > 0) & (delays > 0) & (delays >= span[0]) & (delays <= span[1])
    times, curve, scale = delays[kept], values[kept], scale[kept]
    if len(times) < 6:
        raise FitError(f"a curve of {len(times)} points with errors")
    structure = {**(fixed or {}), **(start or {})}.get("structure", 5.0) if dimensions == 3 else None
    more = {"anomaly": {"value": 1.0, "min": 0.1, "max": 2.0}, "flow_rate": {"value": 0.0, "brute_step": 1 / float(times[-1])}}
    begin = steered(_begin_fcs(times, curve, scale, structure, triplet, species), fixed, start, bounds, more)

    def model(at: Numbers, now: Mapping[str, float]) -> Numbers:
        return fcs_model(at, **now)

    kept_parts = None if parts is None else parts[:, kept]
    return solved(Problem(times, curve, model, normal(curve, scale), begin, kept_parts, parts is None and errors is None))


def _begin_fcs(
    times: Numbers, curve: Numbers, scale: Numbers, structure: float | None, triplet: bool, species: int = 1
) -> Any:
    """Where a fit of a correlation begins: at the best of a grid of times, over which the other parameters are linear."""
    grid = np.geomspace(times[0], times[-1], 24 if not triplet or species == 1 else 12)
    tries = [
        (diffusion, dark, slow)
        for diffusion in grid
        for dark in (grid[grid < diffusion / 3] if triplet else grid[:1])
        for slow in (grid[grid > diffusion * 3] if species == 2 else grid[:1])
    ]
    found = [_linear_fcs(times, curve, scale, structure, (one[0], one[1] if triplet else None, one[2] if species == 2 else None)) for one in tries]
    best = min(range(len(tries)), key=lambda at: found[at][0])
    (diffusion, dark, slow), (baseline, height, *more) = tries[best], found[best][1]
    second = more[0] if species == 2 else 0.0
    begin = want("lmfit", "fits").Parameters()
    begin.add("number", value=1 / max(height + second, 1e-6), min=1e-9)
    begin.add("diffusion", value=diffusion, min=float(times[0]) / 100, max=float(times[-1]) * 100)
    begin.add("baseline", value=baseline)
    if triplet:
        part = more[-1] / (height + second + more[-1])
        begin.add("triplet", value=min(max(part, 0.05), 0.9), min=0, max=0.95, brute_step=0.01)
        begin.add("triplet_time", value=dark, min=float(times[0]) / 100, max=float(times[-1]))
    if species == 2:
        begin.add("part_2", value=min(max(second / (height + second), 0.05), 0.95), min=0, max=1, brute_step=0.01)
        begin.add("diffusion_2", value=slow, min=float(times[0]) / 100, max=float(times[-1]) * 100)
    if structure is not None:
        begin.add("structure", value=structure, min=0.5, max=100, vary=False)
    return begin


def _linear_fcs(
    times: Numbers, curve: Numbers, scale: Numbers, structure: float | None, tried: tuple[float, float | None, float | None]
) -> tuple[float, Numbers]:
    """The least squares of a correlation with these times, and its baseline, its height, that of a second species and what a
    triplet adds to it."""
    diffusion, dark, slow = tried
    shapes = [fcs_model(times, 1.0, one, structure=structure, baseline=0.0) for one in (diffusion, slow) if one is not None]
    columns = [np.ones(len(times)), *shapes, *([] if dark is None else [sum(shapes) * np.exp(-times / dark)])]
    scaled = np.stack(columns, axis=1) / scale[:, None]
    heights = np.linalg.lstsq(scaled, curve / scale, rcond=None)[0]
    squares = float(((scaled @ heights - curve / scale) ** 2).sum())
    return (squares if np.all(heights[1:] > 0) else math.inf), heights
