"""Windows of time, segments of a measurement, and correlations with error bars from them.

The cells are those of a plan's correlation (``docs/correlation.md``), after Wahl, Gregor, Patting and Enderlein, Optics
Express 11, 3583 (2003).
"""

import math

from collections.abc import Iterator, Sequence
from dataclasses import dataclass, replace
from typing import Any

import numpy as np
from numpy.typing import NDArray

from .errors import UnlikeError
from .events import Events, events_of, joined
from .groups import EventsLike, GroupLike, Part, group_of, header_of, pieces_of, ticks_of
from .antibunching import occupied, pair_counts
from .tables import lags_of
from ._values import Compared
from ._xarrays import Axis, labelled, listed

__all__ = ["Curve", "correlation", "correlation_by_segments", "delays", "edges", "split", "together", "window"]


MOST_LAGS = 1 << 20  # of a level, so that all delays have 64 bits
PART = 8  # of a segment that the longest delay may have by itself


@dataclass(frozen=True, eq=False)
class Curve(Compared):
    """A normalised correlation with its errors; all of shape (cells,) but ``segments``.

    - ``ticks``: the delay of each cell, in ticks of T2 or sync periods of T3; ``levels``: the level of each.
    - ``values``: 1 without correlation, the mean of the segments, and nan where none has a pair to expect.
    - ``errors``: the standard error of that mean; nan with fewer than two segments.
    - ``segments``: shape (segments, cells), the curve of each segment.
    - ``unit_seconds``: of a tick or sync period, None where the file doesn't tell.
    - ``rates``: shape (2,), the photons of the two groups in a unit of time; ``length``: the units of time of all segments.
    """

    ticks: NDArray[np.int64]
    levels: NDArray[np.int64]
    values: NDArray[np.float64]
    errors: NDArray[np.float64]
    segments: NDArray[np.float64]
    unit_seconds: float | None = None
    rates: tuple[float, float] = (0.0, 0.0)
    length: int = 0

    @property
    def seconds(self) -> NDArray[np.float64] | None:
        """The delays in seconds, None where the file doesn't tell."""
        return None if self.unit_seconds is None else self.ticks * self.unit_seconds

    def to_xarray(self) -> Any:
        """An ``xarray.Dataset`` of ``values`` and ``errors`` over ``delay``, in seconds where the file tells a tick. Raises
        ``MissingLibraryError`` without xarray."""
        return labelled({"values": self.values, "errors": self.errors}, [Axis("delay", self.ticks, self.seconds)], {"level": ("delay", self.levels)}, {})

    def to_pandas(self) -> Any:
        """The same as a ``pandas.DataFrame``, a line for each delay. Raises ``MissingLibraryError`` without pandas or xarray."""
        return listed(self.to_xarray(), "a correlation as a list")


def window(source: EventsLike, start: int, stop: int) -> Events:
    """The events from the time ``start`` on and before ``stop``, in ticks of T2 or sync periods of T3, late ones too."""
    return joined([piece[(piece["time"] >= start) & (piece["time"] < stop)] for piece in pieces_of(source)], header_of(source))


def edges(first: int, last: int, segments: int) -> NDArray[np.int64]:
    """Where ``segments`` segments of equal length begin, and where the last one ends: shape (segments + 1,).

    ``first`` and ``last``: times of the first and the last event, in ticks of T2 or sync periods of T3. The length is
    (last + 1 - first) // segments; what is left over at the end is in no segment. Raises ``ValueError``
    where a segment would have no time.
    """
    length = (last + 1 - first) // segments if segments > 0 else 0
    if length < 1:
        raise ValueError(f"{segments} segments from {first} to {last}")
    return first + length * np.arange(segments + 1, dtype=np.int64)


def split(source: Part, segments: int) -> Iterator[Events]:
    """The events that aren't late in ``segments`` segments of equal time, from the first to the last of them.

    Raises ``ValueError`` where there are no events, or a segment would have no time.
    """
    events = events_of(source)
    events = events[~events["late"]]
    if not len(events):
        raise ValueError("no events to split")
    times = events.times
    for start, stop in zip(*_sides(edges(int(times.min()), int(times.max()), segments)), strict=True):
        yield events[(times >= start) & (times < stop)]


def _sides(at: NDArray[np.int64]) -> tuple[NDArray[np.int64], NDArray[np.int64]]:
    return at[:-1], at[1:]


def delays(lags: int, levels: int) -> tuple[NDArray[np.int64], NDArray[np.int64]]:
    """Delay and level of each cell of a correlation, in the order of a report: shape (lags + (levels - 1) * lags / 2,).

    Raises ``ValueError`` for an odd number of lags, fewer than 2 or more than 2^20, and fewer than 1 or more than 40 levels.
    """
    if not 2 <= lags <= MOST_LAGS or lags % 2 or not 1 <= levels <= 40:
        raise ValueError(f"a correlation of {lags} lags and {levels} levels")
    level, lag = lags_of({"lags": lags, "levels": levels})
    return lag << level, level


def correlation(
    times: NDArray[np.int64], first: NDArray[Any], second: NDArray[Any], *, lags: int = 16, levels: int = 20
) -> NDArray[np.int64]:
    """The pairs of each cell of a correlation, in the order of ``delays``: what ``ptu run`` counts.

    ``times``: shape (photons,), 0 or more, in ticks or sync periods; ``first`` and ``second``: which photons are of
    either group, or whole numbers that each counts for. On level L a bin has 2^L units of time and begins at a multiple of that.
    """
    delays(lags, levels)
    bins, firsts, seconds, _ = occupied(times, first, second)
    cells = []
    for level in range(levels):
        if level:
            bins, firsts, seconds = _coarser(bins, firsts, seconds)
        least = 1 if level == 0 else lags // 2 + 1
        cells.append(pair_counts(bins, firsts, seconds, lags)[least:])
    return np.concatenate(cells)


def _coarser(
    bins: NDArray[np.int64], firsts: NDArray[np.int64], seconds: NDArray[np.int64]
) -> tuple[NDArray[np.int64], NDArray[np.int64], NDArray[np.int64]]:
    """Bins of twice the width, with the sums of their photons."""
    bins = bins >> 1
    if not len(bins):
        return bins, firsts, seconds
    begin = np.flatnonzero(np.concatenate(([True], bins[1:] != bins[:-1])))
    return bins[begin], np.add.reduceat(firsts, begin), np.add.reduceat(seconds, begin)


def correlation_by_segments(
    source: EventsLike, first: GroupLike, second: GroupLike, *, segments: int = 10, lags: int = 16, levels: int | None = None
) -> Curve:
    """A correlation with error bars: the mean over segments of equal time, and its standard error.

    Each segment is correlated by itself, with times from its beginning, and normalised by its own photons and length:
    G = PAIRS * T^2 / (FIRST * SECOND * 2^L * (T - t)), as in ``docs/correlation.md``, with the segment's length T. The
    error is the standard deviation between segments over the root of their number (Wohland, Rigler and Vogel,
    Biophysical Journal 80, 2987, 2001), so of few segments it is itself known to a part of 1 / sqrt(2 (segments - 1)). A
    delay t must be short beside T: choose few segments for long delays. The errors of neighbouring delays go together, so
    many points can lie off by one error on the same side.

    ``first`` and ``second`` may be ``fcs.Filtered``, whose photons count by their dtimes. ``levels``: None for as many as have delays up to an eighth of a segment.

    Raises ``ValueError`` where there is no event, for segments without time, and as ``delays`` does.
    """
    delays(lags, 1 if levels is None else levels)
    times, one, two, ends = _photons(source, first, second)
    at = edges(*ends, segments)
    length = int(at[1] - at[0])
    levels = max(1, min(40, (length // (PART * lags)).bit_length())) if levels is None else levels
    ticks, level = delays(lags, levels)
    places = 2.0**level * np.maximum(length - ticks, 0) / float(length) ** 2  # for a pair of one photon each
    curves: list[NDArray[np.float64]] = []
    for begin, end in zip(np.searchsorted(times, at[:-1]), np.searchsorted(times, at[1:]), strict=True):
        part = slice(begin, end)
        pairs = correlation(times[part] - at[len(curves)], one[part], two[part], lags=lags, levels=levels)
        expected = float(one[part].sum()) * float(two[part].sum()) * places
        curves.append(np.divide(pairs, expected, out=np.full(len(pairs), np.nan), where=expected > 0))
    values, errors = _mean(np.array(curves))
    unit = ticks_of(source).global_seconds
    rates = tuple(float(some.sum()) / (group_of(group).units * segments * length) for some, group in ((one, first), (two, second)))
    return Curve(ticks, level, values, errors, np.array(curves), unit, (rates[0], rates[1]), segments * length)


def together(curves: Sequence[Curve]) -> Curve:
    """One correlation of several measurements of a sample, as of files: the mean of all their segments by their photons.

    A segment counts by the photons of its measurement, the root of the product of both groups, so a long or bright one counts
    more. The errors are by the scatter of all segments, and with it that of the measurements. The ``segments`` of the result are
    stretched from the mean by how much they count, so that their own mean and its error are those of the result, as
    ``fits.fit_fcs`` takes them. Delays are those that all have. Raises ``UnlikeError`` for other lags or another unit of time, and
    ``ValueError`` without photons.
    """
    ticks = min((one.ticks for one in curves), key=len, default=np.zeros(0, np.int64))
    many = len(ticks)
    if any(one.unit_seconds != curves[0].unit_seconds or not np.array_equal(one.ticks[:many], ticks) for one in curves):
        raise UnlikeError("correlations with other lags or another unit of time aren't taken together")
    photons = [one.length * np.array(one.rates) for one in curves]
    means = [math.sqrt(np.prod(some)) / len(one.segments) for one, some in zip(curves, photons)]
    counts = np.concatenate([np.full(len(one.segments), mean) for one, mean in zip(curves, means)] or [np.zeros(1)])
    if not counts.sum() > 0:
        raise ValueError("no photons to correlate")
    rows = np.concatenate([one.segments[:, :many] for one in curves])
    weights = np.where(np.isnan(rows), 0.0, counts[:, None])
    whole, known = weights.sum(axis=0), (weights > 0).sum(axis=0)
    mean = np.divide((np.nan_to_num(rows) * weights).sum(axis=0), whole, out=np.full(many, np.nan), where=whole > 0)
    rows = mean + (rows - mean) * np.divide(weights * known, whole, out=np.ones(weights.shape), where=whole > 0)
    length = sum(one.length for one in curves)
    rates = np.sum(photons, axis=0) / length
    values, errors = _mean(rows)
    return replace(curves[0], ticks=ticks, levels=curves[0].levels[:many], values=values, errors=errors, segments=rows, rates=(float(rates[0]), float(rates[1])), length=length)


def _mean(curves: NDArray[np.float64]) -> tuple[NDArray[np.float64], NDArray[np.float64]]:
    """The mean of some curves and its standard error, over those that have a value."""
    known = ~np.isnan(curves)
    number = known.sum(axis=0)
    filled = np.where(known, curves, 0.0)
    mean = np.divide(filled.sum(axis=0), number, out=np.full(curves.shape[1], np.nan), where=number > 0)
    square = (np.where(known, curves - mean, 0.0) ** 2).sum(axis=0)
    below = number * (number - 1.0)
    return mean, np.sqrt(np.divide(square, below, out=np.full(curves.shape[1], np.nan), where=below > 0))


def _photons(
    source: EventsLike, first: GroupLike, second: GroupLike
) -> tuple[NDArray[np.int64], NDArray[Any], NDArray[Any], tuple[int, int]]:
    """Times of the photons of either group in order, what they count for in the first and in the second, and the first and
    last time of all events that aren't late."""
    groups, parts, ends = (group_of(first), group_of(second)), [], []
    for piece in pieces_of(source):
        one, two = (group.weights(piece) for group in groups)
        either = (one != 0) | (two != 0)
        parts.append((piece["time"][either], one[either], two[either]))
        inside = piece["time"][~piece["late"]]
        ends += [int(inside.min()), int(inside.max())] if len(inside) else []
    if not ends:
        raise ValueError("no events to correlate")
    times, one, two = (np.concatenate(column) for column in zip(*parts, strict=True))
    return times, one, two, (min(ends), max(ends))
