"""What the photons of bins tell of brightness, and when a brightness changes: photon counting histograms, change points, and
times on and off.

``frequencies``, of shape (counts,), say how many bins have 0, 1, .. photons: those of ``read_trace``, or ``np.bincount`` of a
trace's counts. Fits are those of ``fits``: errors of one standard deviation by Poisson's likelihood, and steered in the same way.
"""

import math
from collections.abc import Callable, Mapping
from dataclasses import dataclass
from functools import cache, lru_cache
from itertools import product
from typing import Any, Literal

import numpy as np
from numpy.typing import NDArray

from .errors import FitError
from ._fitting import Bounds, Fit, Numbers, Problem, Values, poisson, solved, steered
from ._optional import want
from ._values import Compared

__all__ = ["Levels", "change_points", "fit_durations", "fit_pch", "fit_two_states", "on_and_off", "pch", "threshold"]

PASSES = 20  # over change points, until none moves
COARSE = 1 << 13  # places in a span where a change is looked for first


def pch(
    counts: int,
    number: float,
    brightness: float,
    *,
    background: float = 0.0,
    number_2: float = 0.0,
    brightness_2: float = 0.0,
    dimensions: Literal[2, 3] = 3,
) -> Numbers:
    """The probabilities that a bin has 0, 1, .. photons of molecules in a Gaussian focus: shape (counts,).

    ``number``: molecules in the effective volume, as of ``fcs_model``, ``brightness``: photons that each of them gives in a bin, so
    that number * brightness + ``background`` is the mean, all in bins that are short beside the diffusion; ``number_2`` and
    ``brightness_2`` of a second species. The profile is W = exp(-2 (x^2 + y^2) / w^2 - 2 z^2 / z0^2), of a photon or, with
    other w and z0, of two, in two ``dimensions`` without z; a molecule in its centre gives e = 2^(dimensions / 2) * brightness.

    The photons of molecules that are anywhere, as many as Poisson's law has, are sums of a Poisson number of terms: k photons
    of one molecule come with the rate number / 2^(dimensions / 2) * integral of Poi(k, e W) over the volume, in units of the
    integral of W, and the law of the sums has the logarithm of its transform from the transform of these rates. That is the histogram
    of Chen, Müller, So and Gratton (Biophysical Journal 77, 553, 1999), whose N is number / 2^(3/2) and whose epsilon is e.
    Dead times and afterpulses are none of it.
    """
    focus = 2 ** (dimensions / 2)
    mean, peak = number * brightness + number_2 * brightness_2 + background, focus * max(brightness, brightness_2)
    size = 1 << min(int(2 * counts + 4 * mean + 8 * peak + 64).bit_length(), 18)  # so that what comes round the circle is nothing
    rates = np.zeros(size)
    rates[1] = background
    for many, bright in ((number, brightness), (number_2, brightness_2)):
        if many > 0 and bright > 0:
            each = _rates(bright * focus, dimensions)[:size]
            rates[1 : len(each)] += many / focus * each[1:]
    law = np.fft.irfft(np.exp(np.fft.rfft(rates) - rates.sum()), size)
    return np.asarray(np.maximum(law[:counts], 0.0))


@lru_cache(32)  # as a fit changes one parameter after the other, and the grid where it begins has few brightnesses
def _rates(peak: float, dimensions: int) -> Numbers:
    """How often k photons come of one molecule, for k = 0, 1, ..: by r with r^2 = 2 (x^2 + y^2) / w^2 + 2 z^2 / z0^2, of
    which the volume has 4 r^2 / sqrt(pi) in units of that of the profile, and a plane 2 r, whose integral is known for k > 0."""
    photons = np.arange(int(peak + 10 * math.sqrt(peak)) + 31)
    some = np.maximum(photons, 1)
    if dimensions == 2:
        return np.asarray(want("scipy.special", "a histogram of a plane").gammainc(some, peak) / some)
    step = min(0.1, 0.3 / math.sqrt(peak + 1))
    radii = np.arange(0, 5.6, step)
    logarithms = np.log(peak) - radii**2
    chances = np.exp(np.outer(logarithms, photons) - np.exp(logarithms)[:, None] - np.cumsum(np.log(some)))
    return np.asarray(4 / math.sqrt(math.pi) * step * (radii**2 @ chances))


def fit_pch(
    frequencies: NDArray[Any],
    *,
    species: Literal[1, 2] = 1,
    dimensions: Literal[2, 3] = 3,
    span: tuple[float, float] = (0, math.inf),
    fixed: Values = None,
    start: Values = None,
    bounds: Bounds = None,
) -> Fit:
    """A fit of a photon counting histogram by ``pch``: ``number`` and ``brightness``, of two ``species`` also ``number_2`` and
    ``brightness_2``, of the dimmer one.

    ``background``, in photons a bin, is 0 and there where it is named, as ``fixed={"background": 0.2}``: a histogram hardly tells
    it from dim molecules. ``span``: bins with so many photons, from the first up to below the second, are fitted, whatever the others have. Bins count as independent: those that follow one another share molecules, so that errors are too small where a
    bin is shorter than the time that one stays. Raises ``FitError``, and ``ValueError`` without photons.
    """
    data = _good(frequencies, span)
    axis = np.arange(len(data), dtype=np.float64)
    seen = np.where((axis >= span[0]) & (axis < span[1]), data, 0.0)
    known = {**(start or {}), **(fixed or {})}.get("background", 0.0)
    begin = want("lmfit", "fits").Parameters()
    for name, value in _begin_pch(axis, seen, species, dimensions, known).items():
        begin.add(name, value=value, min=1e-6 * value, max=1e4 * value)
    more = {"background": {"value": 0.0, "min": 0.0, "brute_step": 0.01 * float(axis @ seen / seen.sum())}}

    def law(counts: int, now: Mapping[str, float]) -> Numbers:
        return pch(counts, dimensions=dimensions, **now)

    return _fitted(data, law, span, steered(begin, fixed, start, bounds, more))


def _fitted(data: Numbers, law: Callable[[int, Mapping[str, float]], Numbers], span: tuple[float, float], begin: Any) -> Fit:
    """A fit of those bins whose photons are in the span, by the law of 0, 1, .. photons, of which it takes its part there."""
    axis = np.arange(len(data), dtype=np.float64)
    some, first = (axis >= span[0]) & (axis < span[1]), max(math.ceil(span[0]), 0)

    def model(at: Numbers, now: Mapping[str, float]) -> Numbers:
        each = law(int(max(np.max(at), axis[-1])) + 1, now)
        inside = 1 - each[:first].sum() if span[1] >= len(each) else each[first : math.ceil(span[1])].sum()
        return np.asarray(data[some].sum() / inside * each[np.asarray(at, dtype=np.int64)])

    return solved(Problem(axis[some], data[some], model, poisson(data[some]), begin))


def _good(frequencies: NDArray[Any], span: tuple[float, float]) -> Numbers:
    """A histogram with some empty bins at its end: that no bin has more photons tells something too."""
    data = np.asarray(frequencies, dtype=np.float64)
    if data.ndim != 1 or np.any(data < 0) or not np.any(data[max(1, math.ceil(span[0])) : math.ceil(min(span[1], data.size))] > 0):
        raise ValueError(f"no histogram of photons: shape {data.shape}, the least {data.min(initial=0):g}, from {span[0]:g} to {span[1]:g}")
    data = np.trim_zeros(data, "b")
    return np.append(data, np.zeros(len(data) // 2 + 8))


def _begin_pch(
    axis: Numbers, data: Numbers, species: int, dimensions: Literal[2, 3], background: float
) -> dict[str, float]:
    """By the mean m and the variance v: brightness is (v - m) / (m - background); of two species the best of a grid of
    brightnesses with the same mean and variance."""
    total = float(data.sum())
    mean = float(axis @ data) / total
    excess = max(float((axis - mean) ** 2 @ data) / total - mean, 1e-3 * mean)
    signal = max(mean - background, 0.01 * mean)
    bright = excess / signal
    best, found = math.inf, {"number": signal / bright, "brightness": bright}
    if species == 1:
        return found
    for high, low in product(np.geomspace(1.2, 8, 8) * bright, np.geomspace(0.05, 0.9, 8) * bright):
        two = signal * (high - bright) / (low * (high - low))
        tried = {"number": (signal - two * low) / high, "brightness": high, "number_2": two, "brightness_2": low}
        curve = np.maximum(total * pch(len(data), background=background, dimensions=dimensions, **tried), 1e-12)
        less = float((curve - data * np.log(curve)).sum())
        if less < best:
            best, found = less, tried
    return {name: float(value) for name, value in found.items()}


@dataclass(frozen=True, eq=False)
class Levels(Compared):
    """Spans of one brightness each: ``edges``, shape (levels + 1,), in the unit of the times, and ``photons``, shape (levels,)."""

    edges: NDArray[np.int64]
    photons: NDArray[np.int64]

    @property
    def durations(self) -> NDArray[np.int64]:
        """How long each level lasts: shape (levels,)."""
        return np.diff(self.edges)

    @property
    def rates(self) -> Numbers:
        """Photons in a unit of time: shape (levels,)."""
        return np.asarray(self.photons / np.maximum(self.durations, 1))

    @property
    def errors(self) -> Numbers:
        """The standard deviations of the rates, for levels that are cut right: shape (levels,)."""
        return np.asarray(self.rates / np.sqrt(self.photons))

    def to_pandas(self, unit_seconds: float | None = None) -> Any:
        """The levels as a ``pandas.DataFrame``: ``start``, ``stop``, ``duration``, ``photons``, ``rate`` and its ``error``; where it is given how
        long a unit of the times is, in seconds and photons a second. Raises ``MissingLibraryError`` without pandas."""
        unit = 1 if unit_seconds is None else unit_seconds
        columns: dict[str, NDArray[Any]] = {"start": self.edges[:-1] * unit, "stop": self.edges[1:] * unit, "duration": self.durations * unit}
        columns |= {"photons": self.photons, "rate": self.rates / unit, "error": self.errors / unit}
        return want("pandas", "levels as a list").DataFrame(columns)


def change_points(times: NDArray[np.int64], *, level: float = 0.05) -> Levels:
    """The levels of brightness of photons by their times of arrival, shape (photons,), rising, in ticks.

    Of N times between photons that take T in all, of which the first k take v T, the likelihood of a change after k over that of
    none is k ln(k / (N v)) + (N - k) ln((N - k) / (N (1 - v))). A span is divided where it is greatest, if it is greater than by chance
    in a part ``level`` of spans without a change, and each part again; then each change is looked for once more between its
    neighbours, and left out where it isn't found (Watkins and Yang, Journal of Physical Chemistry B 109, 617, 2005). What is
    greatest by chance is told by Vostrikova's limit (Csörgő and Horváth, Limit Theorems in Change-Point Analysis, Wiley 1997,
    section 1.3), for changes with at least (ln N)^(3/2) photons on either side; so fewer than some twenty photons aren't divided.
    Raises ``ValueError`` for times that fall, fewer than two of them, and a level that is none.
    """
    times = np.asarray(times, dtype=np.int64)
    if times.ndim != 1 or len(times) < 2 or np.any(np.diff(times) < 0) or not 0 < level < 1:
        raise ValueError(f"changes at a level of {level} in {np.shape(times)} times, which must rise")
    points, spans = [0, len(times) - 1], [(0, len(times) - 1)]
    while spans:
        first, last = spans.pop()
        at = _change(times, first, last, level)
        if at is not None:
            points.append(at)
            spans += [(first, at), (at, last)]
    points = _again(times, sorted(points), level)
    return Levels(times[points], np.diff(points))


def _change(times: NDArray[np.int64], first: int, last: int, level: float) -> int | None:
    """The photon after which the brightness changes most likely, if it does."""
    many = last - first
    edge = math.ceil(math.log(many) ** 1.5) if many > 1 else 1
    if many < 2 * edge or times[last] == times[first]:
        return None
    step = max(1, many // COARSE)
    best, likely = _likeliest(times, first, last, np.arange(edge, many - edge + 1, step))
    if step > 1:
        best, likely = _likeliest(times, first, last, np.arange(max(best - step, edge), min(best + step, many - edge) + 1))
    return first + best if _chance(math.sqrt(2 * max(likely, 0.0)), edge / many) < level else None


def _likeliest(times: NDArray[np.int64], first: int, last: int, k: NDArray[np.int64]) -> tuple[int, float]:
    """After how many of a span's photons a change is most likely, and the logarithm of its likelihood over that of none."""
    many, v = last - first, (times[first + k] - times[first]) / (times[last] - times[first])
    v = np.minimum(np.maximum(v, 1e-300), 1 - 2.0**-53)
    likely = k * np.log(k / (many * v)) + (many - k) * np.log((many - k) / (many * (1 - v)))
    best = int(np.argmax(likely))
    return int(k[best]), float(likely[best])


def _chance(x: float, edge: float) -> float:
    """How likely the greatest root of twice such a likelihood is more than x by chance, at least this part away from the ends."""
    if x < 1:
        return 1.0
    wide = 2 * math.log((1 - edge) / edge) if edge < 0.5 else 0.0
    return x * math.exp(-(x**2) / 2) / math.sqrt(2 * math.pi) * (wide * (1 - 1 / x**2) + 4 / x**2)


def _again(times: NDArray[np.int64], points: list[int], level: float) -> list[int]:
    """The same changes, each looked for between its neighbours until none moves."""
    between = cache(lambda first, last: _change(times, first, last, level))
    for _ in range(PASSES):
        before, at = list(points), 1
        while at < len(points) - 1:
            found = between(points[at - 1], points[at + 1])
            points[at : at + 1] = [] if found is None else [found]
            at += found is not None
        if points == before:
            break
    return points


def fit_two_states(
    frequencies: NDArray[Any],
    *,
    span: tuple[float, float] = (0, math.inf),
    fixed: Values = None,
    start: Values = None,
    bounds: Bounds = None,
) -> Fit:
    """A fit of a photon counting histogram by two states of Poisson's law: ``dark`` and ``bright``, photons a bin, and
    ``part``, that of the bins that are bright: of k photons (1 - part) * Poi(k, dark) + part * Poi(k, bright) of all bins have them.

    Bins in which the state changes lie between, so bins must be short beside the states. ``span`` as of ``fit_pch``. Raises ``FitError``, and ``ValueError`` without photons.
    """
    data = _good(frequencies, span)
    axis = np.arange(len(data), dtype=np.float64)
    seen = np.where((axis >= span[0]) & (axis < span[1]), data, 0.0)
    special = want("scipy.special", "fits of two states")
    parted = float(axis @ seen / seen.sum())
    for _ in range(100):  # halfway between the means of both sides
        below = axis <= parted
        dark, bright = (float(axis[some] @ seen[some] / max(seen[some].sum(), 1e-300)) for some in (below, ~below))
        parted = (dark + bright) / 2
    begin = want("lmfit", "fits").Parameters()
    begin.add("dark", value=max(dark, 1e-3), min=0, max=float(axis[-1]))
    begin.add("bright", value=bright, min=0, max=float(axis[-1]))
    part = float(seen[axis > parted].sum() / seen.sum())
    begin.add("part", value=float(np.clip(part, 0.01, 0.99)), min=0, max=1)

    def law(counts: int, now: Mapping[str, float]) -> Numbers:
        at = np.arange(counts)
        dark, bright = (np.exp(special.xlogy(at, now[name]) - now[name] - special.gammaln(at + 1)) for name in ("dark", "bright"))
        return np.asarray((1 - now["part"]) * dark + now["part"] * bright)

    return _fitted(data, law, span, steered(begin, fixed, start, bounds))


def threshold(fit: Fit) -> float:
    """The photons a bin where both states of ``fit_two_states`` are as likely: (bright - dark + ln((1 - part) / part)) /
    ln(bright / dark)."""
    dark, bright, part = (fit.values[name] for name in ("dark", "bright", "part"))
    return (bright - dark + math.log((1 - part) / part)) / math.log(bright / dark)


def on_and_off(what: Levels | NDArray[Any], threshold: float, *, width: float = 1) -> tuple[Numbers, Numbers]:
    """The times that it was on, and those that it was off, each in their order: shapes (on,), (off,), by a threshold (Kuno and
    others, Journal of Chemical Physics 112, 3117, 2000).

    ``what``: the counts of all bins of a trace, shape (bins,), of which those above the ``threshold`` are on, with bins of ``width``,
    or ``Levels``, whose rates above it are on, in their own unit. The first and the last time are cut by the measurement, and left out.
    """
    rates, lengths = (what.rates, what.durations) if isinstance(what, Levels) else (what, np.full(len(what), width))
    on = np.asarray(rates) > threshold
    begins = np.flatnonzero(np.append(True, on[1:] != on[:-1])) if len(on) else np.zeros(0, np.int64)
    times = np.add.reduceat(np.asarray(lengths, dtype=np.float64), begins)[1:-1] if len(on) else np.zeros(0)
    states = on[begins][1:-1]
    return times[states], times[~states]


def fit_durations(
    durations: NDArray[Any],
    law: Literal["exponential", "power"] = "exponential",
    *,
    span: tuple[float, float] = (0.0, math.inf),
    width: float = 0.0,
    decade: int = 10,
    fixed: Values = None,
    start: Values = None,
    bounds: Bounds = None,
) -> Fit:
    """A fit of the histogram of times on or off over logarithmic cells, ``decade`` of them in a power of ten.

    ``law``: exponential, with the mean ``time``, or a power of time with the ``exponent`` m > 1, p(t) ~ t^-m (Kuno,
    Fromm, Hamann, Gallagher and Nesbitt, Journal of Chemical Physics 112, 3117, 2000), and ``number``, that of the times from the
    beginning of the ``span`` on, by default from the shortest one. Both are integrated over the cells: ``data`` are the times in each, ``axis`` has its
    geometric middle. ``width``: that of the bins of which the times are whole numbers; cells then end between
    two of these, and times count from half a bin before the shortest. An exponential keeps its time when it is counted in whole bins; a
    power of time does so from some ten bins on. Raises ``FitError`` and ``ValueError`` for fewer than two different times.
    """
    durations = np.asarray(durations, dtype=np.float64)
    durations = durations[(durations >= span[0]) & (durations < span[1]) & (durations > 0)]
    if len(np.unique(durations)) < 2 or law not in ("exponential", "power"):
        raise ValueError(f"a law {law} of {len(durations)} times")
    edges = _cells(durations, span, width, decade)
    least, data = float(edges[0]), np.histogram(durations, edges)[0].astype(np.float64)
    if len(data) < 3:
        raise FitError(f"times in {len(data)} cells")
    begin = want("lmfit", "fits").Parameters()
    begin.add("number", value=float(len(durations)), min=0)
    if law == "exponential":
        begin.add("time", value=max(float(durations.mean()) - least, 1e-3 * least), min=1e-6 * least, max=1e3 * float(edges[-1]))
    else:
        begin.add("exponent", value=1 + len(durations) / float(np.log(durations / least).sum()), min=1, max=20)

    def model(_: Numbers, now: Mapping[str, float]) -> Numbers:
        later = np.exp(-(edges - least) / now["time"]) if law == "exponential" else (edges / least) ** (1 - now["exponent"])
        return np.asarray(-now["number"] * np.diff(later))

    return solved(Problem(np.sqrt(edges[1:] * edges[:-1]), data, model, poisson(data), steered(begin, fixed, start, bounds)))


def _cells(durations: Numbers, span: tuple[float, float], width: float, decade: int) -> Numbers:
    """Where logarithmic cells end, from the shortest time to beyond the longest: of times in bins between two numbers of them."""
    least = max(span[0], float(durations.min()))
    most = min(span[1], float(durations.max()) * (1 + 1e-9) + width)
    edges = np.geomspace(least, most, max(4, math.ceil(decade * math.log10(most / least)) + 1))
    if not width:
        return edges
    between = np.rint(edges / width) - 0.5
    return np.asarray(np.unique(between) * width)
